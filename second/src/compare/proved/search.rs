//! The search of a table for free blocks.

extern "C" {
    fn petrelknob_search(tables: *const u8, tables_length: usize, block_count: u32, n: u32) -> u32;
}

/// Returns the turns in the low 16 bits, and above them the start counted from
/// 1, or 0. It is 0 if the search cannot be asked for.
pub fn search(tables: &mut [u8], block_count: u32, n: u32) -> u32 {
    // SAFETY: pointer and length are those of one slice lent for this call. The
    // slice may be written, so that a write, which would be wrong, is seen.
    unsafe {
        petrelknob_search(
            tables.as_mut_ptr().cast_const(),
            tables.len(),
            block_count,
            n,
        )
    }
}
