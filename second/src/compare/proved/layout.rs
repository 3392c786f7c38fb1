//! The layout.

use crate::link::layout::Request;

extern "C" {
    fn petrelknob_layout(
        begin: u32,
        end: u32,
        local_blocks: u32,
        remote_blocks: u32,
        alignment: u32,
        answer: *mut u32,
        answer_length: usize,
    ) -> u32;
}

/// Returns 0 or the refusal number, and writes the five values of the layout
/// (of a shorter answer, the first of them) to `answer`.
pub fn layout(request: &Request, answer: &mut [u32]) -> u32 {
    // SAFETY: pointer and length are those of one slice lent for this call,
    // and the function writes nowhere else.
    unsafe {
        petrelknob_layout(
            request.begin,
            request.end,
            request.local_blocks,
            request.remote_blocks,
            request.alignment,
            answer.as_mut_ptr(),
            answer.len(),
        )
    }
}
