//! Call scripts.

use crate::link::script::Memory;

extern "C" {
    fn petrelknob_script(
        script: *const u8,
        script_length: usize,
        transmit: *mut u8,
        transmit_length: usize,
        receive: *mut u8,
        receive_length: usize,
        buffer: *mut u8,
        buffer_length: usize,
        out: *mut u8,
        out_length: usize,
    ) -> usize;
}

/// Runs a call script, as `script::run` does.
pub fn script(script: &[u8], memory: Memory, out: &mut [u8]) -> usize {
    let Memory {
        transmit,
        receive,
        buffer,
    } = memory;
    // SAFETY: pointers and lengths are those of slices lent for this call, and
    // the function writes nowhere but in the four that may be written.
    unsafe {
        petrelknob_script(
            script.as_ptr(),
            script.len(),
            transmit.as_mut_ptr(),
            transmit.len(),
            receive.as_mut_ptr(),
            receive.len(),
            buffer.as_mut_ptr(),
            buffer.len(),
            out.as_mut_ptr(),
            out.len(),
        )
    }
}
