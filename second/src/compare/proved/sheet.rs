//! Picks out of two sheets.

use std::ops::Range;
use std::ptr;

extern "C" {
    fn petrelknob_pick(
        hand: *const u8,
        hand_length: usize,
        incoming: *const u8,
        incoming_length: usize,
        path: *const u8,
        path_length: usize,
        answer: *mut u32,
        answer_length: usize,
    ) -> u32;
}

/// Picks a value out of two sheets. The hand-set sheet, the incoming one and the
/// path are parts of one memory, which may overlap; where an empty one begins is
/// an address, and any. Returns 0 or the refusal number, and writes which sheet
/// it is, begin and size (to a shorter answer, the first of them) to `answer`.
pub fn pick(memory: &mut [u8], parts: &[Range<usize>; 3], answer: &mut [u32]) -> u32 {
    // The parts may overlap, so all of them are reached by one pointer. It is
    // one to write by: a write would be wrong, and is to be seen.
    let (base, length) = (memory.as_mut_ptr(), memory.len());
    let [(hand, hand_length), (incoming, incoming_length), (path, path_length)] =
        parts.each_ref().map(|part| {
            if part.is_empty() {
                (ptr::without_provenance(part.start), 0)
            } else {
                assert!(part.end <= length, "a part outside its memory");
                (base.wrapping_add(part.start).cast_const(), part.len())
            }
        });
    // SAFETY: each part has no bytes or lies in the memory, which is lent for this
    // call and reached by nothing but `base` until it is over. The answer is a
    // slice of its own, and the function writes nowhere else.
    unsafe {
        petrelknob_pick(
            hand,
            hand_length,
            incoming,
            incoming_length,
            path,
            path_length,
            answer.as_mut_ptr(),
            answer.len(),
        )
    }
}
