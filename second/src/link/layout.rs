//! The layout of one region: a ring, then blocks.
//!
//! All sizes are whole numbers (`i64`, far wider than any value here), so
//! nothing wraps and a difference may be negative.

use std::ops::Range;

use crate::link::refusal::{refuse, Refusal};

/// The good alignments: the powers of two from 4 to 256.
pub const ALIGNMENTS: [u32; 7] = [4, 8, 16, 32, 64, 128, 256];

/// The most blocks a region may have.
pub const MOST_BLOCKS: u32 = 256;

/// The most bytes a raw region may have.
pub const LARGEST_REGION: i64 = 1_048_576;

/// What a layout is asked for: a raw region, its own and the other region's
/// block counts, and the alignment.
#[derive(Clone, Copy)]
pub struct Request {
    pub begin: u32,
    /// Exclusive.
    pub end: u32,
    pub local_blocks: u32,
    pub remote_blocks: u32,
    pub alignment: u32,
}

/// An accepted layout.
pub struct Layout {
    /// Begin of the region, rounded up.
    pub begin: u32,
    /// Bytes of the ring behind its header.
    pub data_length: u32,
    /// Where the ring ends and the first block begins.
    pub blocks_begin: u32,
    pub block_size: u32,
    /// End of the region, rounded down; the last block ends here.
    pub end: u32,
}

/// Where a ring lies in its raw region.
pub struct RingPlace {
    /// Bytes of the whole raw region.
    pub raw_length: usize,
    pub read_index: usize,
    pub write_index: usize,
    pub data: Range<usize>,
}

/// A region that has a ring, before blocks or alone.
pub trait Ringed {
    /// Where its ring is, or the first refusal that applies to its numbers.
    fn ring_place(&self) -> Result<RingPlace, Refusal>;
}

impl Ringed for Request {
    fn ring_place(&self) -> Result<RingPlace, Refusal> {
        let layout = lay_out(self)?;
        let offset = |address: u32| (address - self.begin) as usize;
        let read_index = offset(layout.begin);
        let header = ring_header(self.alignment.into()) as usize;
        Ok(RingPlace {
            raw_length: offset(self.end),
            read_index,
            write_index: read_index + self.alignment as usize,
            data: read_index + header..offset(layout.blocks_begin),
        })
    }
}

/// Lays a region out, or gives the first refusal that applies.
pub fn lay_out(request: &Request) -> Result<Layout, Refusal> {
    check_alignment(request.alignment)?;
    let good_counts = 1..=MOST_BLOCKS;
    if !good_counts.contains(&request.local_blocks) || !good_counts.contains(&request.remote_blocks)
    {
        return Err(Refusal::BadBlockCount);
    }
    check_bounds(request.begin, request.end)?;

    let alignment = i64::from(request.alignment);
    let local_blocks = i64::from(request.local_blocks);
    let remote_blocks = i64::from(request.remote_blocks);

    // In a tiny region begin can round past end, and at the last addresses
    // past 2^32: the size is then negative, and so below the minimum.
    let begin = round_up(request.begin.into(), alignment);
    let end = round_down(request.end.into(), alignment);
    let size = end - begin;
    let minimum = ring_minimum(local_blocks, remote_blocks, alignment);
    if size < minimum {
        return Err(Refusal::TooSmall);
    }
    let block_size = round_down((size - minimum) / local_blocks, alignment);
    if block_size == 0 {
        return Err(Refusal::TooSmall);
    }

    // Blocks fill the end of the region; the ring has everything before them.
    let blocks_begin = end - local_blocks * block_size;
    let data_length = blocks_begin - begin - ring_header(alignment);

    Ok(Layout {
        begin: inside_region(begin),
        data_length: inside_region(data_length),
        blocks_begin: inside_region(blocks_begin),
        block_size: inside_region(block_size),
        end: inside_region(end),
    })
}

pub fn check_alignment(alignment: u32) -> Result<(), Refusal> {
    refuse(!ALIGNMENTS.contains(&alignment), Refusal::BadAlignment)
}

/// The limits of a region are those of the raw one, before rounding.
pub fn check_bounds(begin: u32, end: u32) -> Result<(), Refusal> {
    let length = i64::from(end) - i64::from(begin);
    refuse(!(1..=LARGEST_REGION).contains(&length), Refusal::BadBounds)
}

/// True if two regions share no byte; they may touch.
pub fn apart(one: &Range<u32>, other: &Range<u32>) -> bool {
    one.end <= other.start || other.end <= one.start
}

/// The least bytes a ring takes, for blocks of both regions.
pub fn ring_minimum(local_blocks: i64, remote_blocks: i64, alignment: i64) -> i64 {
    ring_header(alignment) + 8 * (local_blocks + remote_blocks + 2)
}

/// The read index padded to the alignment, then the write index.
pub fn ring_header(alignment: i64) -> i64 {
    alignment + 4
}

pub fn round_up(value: i64, alignment: i64) -> i64 {
    round_down(value + alignment - 1, alignment)
}

pub fn round_down(value: i64, alignment: i64) -> i64 {
    value / alignment * alignment
}

/// Every address and length of an accepted layout lies inside the raw region,
/// whose addresses are 32-bit.
fn inside_region(value: i64) -> u32 {
    u32::try_from(value).expect("an accepted layout lies inside its raw region")
}
