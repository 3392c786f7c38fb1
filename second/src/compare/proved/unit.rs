//! Plain units.

use crate::link::unit::{Opening, Plain};

extern "C" {
    fn petrelknob_unit_open(
        tx_begin: u32,
        tx_end: u32,
        rx_begin: u32,
        rx_end: u32,
        alignment: u32,
    ) -> u32;

    fn petrelknob_unit_start(
        begin: u32,
        end: u32,
        alignment: u32,
        region: *mut u8,
        region_length: usize,
        answer: *mut u32,
        answer_length: usize,
    ) -> u32;

    fn petrelknob_unit_push(
        begin: u32,
        end: u32,
        alignment: u32,
        own_index: u32,
        region: *mut u8,
        region_length: usize,
        content: *const u8,
        content_length: usize,
        answer: *mut u32,
        answer_length: usize,
    ) -> u32;

    fn petrelknob_unit_receive(
        begin: u32,
        end: u32,
        alignment: u32,
        own_index: u32,
        region: *mut u8,
        region_length: usize,
        buffer: *mut u8,
        buffer_length: usize,
        answer: *mut u32,
        answer_length: usize,
    ) -> u32;
}

/// Returns 0 or the refusal number of a plain unit's opening.
pub fn unit_open(opening: &Opening) -> u32 {
    // SAFETY: it is handed numbers alone.
    unsafe {
        petrelknob_unit_open(
            opening.transmit_begin,
            opening.transmit_end,
            opening.receive_begin,
            opening.receive_end,
            opening.alignment,
        )
    }
}

/// Returns and answers as `start` does.
pub fn unit_start(plain: &Plain, region: &mut [u8], answer: &mut [u32]) -> u32 {
    // SAFETY: pointers and lengths are those of slices lent for this call, and
    // the function writes nowhere else.
    unsafe {
        petrelknob_unit_start(
            plain.begin,
            plain.end,
            plain.alignment,
            region.as_mut_ptr(),
            region.len(),
            answer.as_mut_ptr(),
            answer.len(),
        )
    }
}

/// Returns and answers as `push` does.
pub fn unit_push(
    plain: &Plain,
    own_index: u32,
    region: &mut [u8],
    content: &[u8],
    answer: &mut [u32],
) -> u32 {
    // SAFETY: pointers and lengths are those of slices lent for this call, and
    // the function writes nowhere but in region and answer.
    unsafe {
        petrelknob_unit_push(
            plain.begin,
            plain.end,
            plain.alignment,
            own_index,
            region.as_mut_ptr(),
            region.len(),
            content.as_ptr(),
            content.len(),
            answer.as_mut_ptr(),
            answer.len(),
        )
    }
}

/// Takes a packet off the ring in the raw region, if the buffer takes its whole
/// content. Returns and answers as `pull` does.
pub fn unit_receive(
    plain: &Plain,
    own_index: u32,
    region: &mut [u8],
    buffer: &mut [u8],
    answer: &mut [u32],
) -> u32 {
    // SAFETY: pointers and lengths are those of slices lent for this call, and
    // the function writes nowhere else.
    unsafe {
        petrelknob_unit_receive(
            plain.begin,
            plain.end,
            plain.alignment,
            own_index,
            region.as_mut_ptr(),
            region.len(),
            buffer.as_mut_ptr(),
            buffer.len(),
            answer.as_mut_ptr(),
            answer.len(),
        )
    }
}
