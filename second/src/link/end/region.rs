//! One of an end's regions, and its blocks.

use std::ops::Range;

use super::runs::Runs;
use crate::link::fault::{unless, Fault};
use crate::link::layout::{lay_out, Layout, Request};
use crate::link::refusal::{refuse, Refusal};

/// Bytes of a message before its content: the content's length, K.
pub const HEADER: usize = 4;

/// A message in blocks, as its header has it.
pub struct Message {
    pub start: u32,
    pub count: u32,
    pub k: u32,
}

impl Message {
    pub fn blocks(&self) -> Range<u32> {
        self.start..self.start + self.count
    }
}

pub struct Region {
    pub request: Request,
    pub layout: Layout,
}

impl Region {
    pub fn new(request: Request) -> Result<Self, Refusal> {
        let layout = lay_out(&request)?;
        Ok(Region { request, layout })
    }

    /// Bytes of the raw region.
    pub fn length(&self) -> usize {
        (self.request.end - self.request.begin) as usize
    }

    /// Refuses a lent slice that is not the whole raw region.
    pub fn check_whole(&self, lent_length: usize) -> Result<(), Refusal> {
        refuse(lent_length != self.length(), Refusal::WrongRegion)
    }

    pub fn block_count(&self) -> u32 {
        self.request.local_blocks
    }

    pub fn free<S>(&self, runs: &Runs<S>) -> u32 {
        u64::from(self.block_count()).saturating_sub(runs.held()) as u32
    }

    /// The least blocks that hold a message of `k` bytes. Of any 32-bit `k`,
    /// so more blocks than there are can be needed.
    pub fn count_for(&self, k: u32) -> u64 {
        framed(k).div_ceil(u64::from(self.layout.block_size))
    }

    /// Bytes of that many blocks.
    pub fn bytes_of(&self, count: u32) -> u64 {
        u64::from(count) * u64::from(self.layout.block_size)
    }

    pub fn check_block(&self, block: u32) -> Result<(), Refusal> {
        refuse(block >= self.block_count(), Refusal::BadBlock)
    }

    /// The message that starts at a block, if it is inside the blocks.
    pub fn message(&self, bytes: &[u8], start: u32) -> Result<Message, Refusal> {
        self.check_block(start)?;
        let k = self.read_k(bytes, start);
        let most = self.bytes_of(self.block_count() - start);
        if framed(k) > unless(Fault::OnePastLastBlock, most, most + 1) {
            return Err(Refusal::PastTheLastBlock);
        }
        let count = self.count_for(k) as u32;
        Ok(Message { start, count, k })
    }

    /// Where a block begins, counted from the first byte of the raw region.
    pub fn block_offset(&self, block: u32) -> usize {
        let blocks_at = self.layout.blocks_begin - self.request.begin;
        blocks_at as usize + self.bytes_of(block) as usize
    }

    /// Where the header of a message lies that starts at this block.
    pub fn header(&self, start: u32) -> Range<usize> {
        let begin = self.block_offset(start);
        begin..begin + HEADER
    }

    /// That many bytes behind the header.
    pub fn content(&self, start: u32, length: usize) -> Range<usize> {
        let begin = self.header(start).end;
        begin..begin + length
    }

    /// K as a header in the region says it.
    pub fn read_k(&self, bytes: &[u8], start: u32) -> u32 {
        number_at(bytes, self.header(start))
    }

    pub fn write_k(&self, bytes: &mut [u8], start: u32, k: u32) {
        bytes[self.header(start)].copy_from_slice(&k.to_le_bytes());
    }
}

/// The number in these four bytes of a region.
pub fn number_at(bytes: &[u8], place: Range<usize>) -> u32 {
    let number = bytes[place].try_into();
    u32::from_le_bytes(number.expect("a place of 4 bytes"))
}

/// Bytes of a message with its header; they may not fit 32 bits.
pub fn framed(k: u32) -> u64 {
    let wrong = k.wrapping_add(HEADER as u32);
    unless(
        Fault::NarrowSize,
        u64::from(k) + HEADER as u64,
        wrong.into(),
    )
}
