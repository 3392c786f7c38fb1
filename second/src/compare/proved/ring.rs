//! The ring of a region with blocks.

use crate::link::layout::Request;

extern "C" {
    fn petrelknob_start(
        begin: u32,
        end: u32,
        local_blocks: u32,
        remote_blocks: u32,
        alignment: u32,
        region: *mut u8,
        region_length: usize,
        answer: *mut u32,
        answer_length: usize,
    ) -> u32;

    fn petrelknob_is_start(content: *const u8, content_length: usize) -> u32;

    fn petrelknob_push(
        begin: u32,
        end: u32,
        local_blocks: u32,
        remote_blocks: u32,
        alignment: u32,
        own_index: u32,
        region: *mut u8,
        region_length: usize,
        content: *const u8,
        content_length: usize,
        answer: *mut u32,
        answer_length: usize,
    ) -> u32;

    fn petrelknob_pull(
        begin: u32,
        end: u32,
        local_blocks: u32,
        remote_blocks: u32,
        alignment: u32,
        own_index: u32,
        region: *mut u8,
        region_length: usize,
        buffer: *mut u8,
        buffer_length: usize,
        answer: *mut u32,
        answer_length: usize,
    ) -> u32;
}

/// Empties the ring in the raw region and puts the start content on it. Returns
/// and answers as a push does; refused, the own index is 0.
pub fn start(request: &Request, region: &mut [u8], answer: &mut [u32]) -> u32 {
    // SAFETY: pointers and lengths are those of slices lent for this call, and
    // the function writes nowhere else.
    unsafe {
        petrelknob_start(
            request.begin,
            request.end,
            request.local_blocks,
            request.remote_blocks,
            request.alignment,
            region.as_mut_ptr(),
            region.len(),
            answer.as_mut_ptr(),
            answer.len(),
        )
    }
}

/// Returns 1 if the content is that of a start, else 0.
pub fn is_start(content: &[u8]) -> u32 {
    // SAFETY: pointer and length are those of one slice, which is only read.
    unsafe { petrelknob_is_start(content.as_ptr(), content.len()) }
}

/// Puts the content on the ring in the raw region. Returns 0 or the refusal
/// number, and writes length, own index after the call and dropped bytes (to a
/// shorter answer, the first of them) to `answer`.
pub fn push(
    request: &Request,
    own_index: u32,
    region: &mut [u8],
    content: &[u8],
    answer: &mut [u32],
) -> u32 {
    // SAFETY: pointers and lengths are those of slices lent for this call, and
    // the function writes nowhere but in region and answer.
    unsafe {
        petrelknob_push(
            request.begin,
            request.end,
            request.local_blocks,
            request.remote_blocks,
            request.alignment,
            own_index,
            region.as_mut_ptr(),
            region.len(),
            content.as_ptr(),
            content.len(),
            answer.as_mut_ptr(),
            answer.len(),
        )
    }
}

/// Takes a packet off the ring in the raw region, into the buffer. Returns and
/// answers as a push does; with 9 alone bytes are dropped.
pub fn pull(
    request: &Request,
    own_index: u32,
    region: &mut [u8],
    buffer: &mut [u8],
    answer: &mut [u32],
) -> u32 {
    // SAFETY: pointers and lengths are those of slices lent for this call, and
    // the function writes nowhere else.
    unsafe {
        petrelknob_pull(
            request.begin,
            request.end,
            request.local_blocks,
            request.remote_blocks,
            request.alignment,
            own_index,
            region.as_mut_ptr(),
            region.len(),
            buffer.as_mut_ptr(),
            buffer.len(),
            answer.as_mut_ptr(),
            answer.len(),
        )
    }
}
