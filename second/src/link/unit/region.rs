//! The region of a plain unit.

use std::ops::Range;

use crate::link::fault::{in_order, planted, unless, Fault};
use crate::link::layout::{
    check_alignment, check_bounds, ring_header, ring_minimum, round_down, round_up, RingPlace,
    Ringed, LARGEST_REGION,
};
use crate::link::refusal::{refuse, Refusal};

/// The least data bytes of a ring, as many as take a start packet.
pub const LEAST_DATA: i64 = 24;

/// A raw region that is all ring, and its alignment.
#[derive(Clone, Copy)]
pub struct Plain {
    pub begin: u32,
    /// Exclusive.
    pub end: u32,
    pub alignment: u32,
}

impl Ringed for Plain {
    fn ring_place(&self) -> Result<RingPlace, Refusal> {
        in_order(
            Fault::BoundsBeforeAlignment,
            self.check_alignment(),
            self.check_bounds(),
        )?;
        refuse(planted(Fault::BlocksCounted), Refusal::BadBlockCount)?;
        let (begin, end) = self.rounded();
        let size = end - begin;
        refuse(size < self.least_size(), Refusal::TooSmall)?;

        // All of these lie inside the raw region.
        let raw_begin = i64::from(self.begin);
        let raw_length = i64::from(self.end) - raw_begin;
        let read_index = unless(Fault::BeginUnrounded, begin - raw_begin, 0);
        let padded = unless(Fault::ReadIndexUnpadded, self.alignment.into(), 4);
        let data = read_index + self.header();
        let data_end = unless(
            Fault::HeaderCounted,
            end - raw_begin,
            raw_length.min(data + size),
        );
        Ok(RingPlace {
            raw_length: raw_length as usize,
            read_index: read_index as usize,
            write_index: (read_index + padded) as usize,
            data: data as usize..data_end as usize,
        })
    }
}

impl Plain {
    fn check_alignment(&self) -> Result<(), Refusal> {
        let multiple = (4..=256).contains(&self.alignment) && self.alignment.is_multiple_of(4);
        if multiple && planted(Fault::AnyMultipleOf4) {
            return Ok(());
        }
        check_alignment(self.alignment)
    }

    fn check_bounds(&self) -> Result<(), Refusal> {
        if self.begin == self.end && planted(Fault::EmptyIsSmall) {
            return Ok(());
        }
        let length = i64::from(self.end) - i64::from(self.begin);
        let largest = length == LARGEST_REGION;
        refuse(
            largest && planted(Fault::LargestRefused),
            Refusal::BadBounds,
        )?;
        check_bounds(self.begin, self.end)
    }

    /// Begin rounded up and end rounded down. In a tiny region begin can come
    /// behind end, and at the last addresses behind 2^32.
    fn rounded(&self) -> (i64, i64) {
        let [begin, end, alignment] = [self.begin, self.end, self.alignment].map(i64::from);
        let to = unless(Fault::RoundedTo4, alignment, 4);
        let end = unless(Fault::EndUnrounded, round_down(end, to), end);
        (round_up(begin, to), end)
    }

    /// The aligned region, if this one is accepted.
    pub fn aligned(&self) -> Range<u32> {
        let (begin, end) = self.rounded();
        begin as u32..end as u32
    }

    /// Bytes of the ring before its data.
    fn header(&self) -> i64 {
        let alignment = i64::from(self.alignment);
        let header = ring_header(alignment);
        let header = unless(Fault::WriteIndexPadded, header, 2 * alignment);
        unless(Fault::ReadIndexUnpadded, header, ring_header(4))
    }

    /// The least bytes of the aligned region.
    fn least_size(&self) -> i64 {
        let data = unless(Fault::LeastOf16, LEAST_DATA, 16);
        let data = unless(Fault::LeastOf28, data, 28);
        let alignment = i64::from(self.alignment);
        let header = ring_header(alignment);
        let header = unless(Fault::WriteIndexPadded, header, 2 * alignment);
        let with_block = ring_minimum(1, 1, alignment) + alignment;
        unless(Fault::BlockWanted, header + data, with_block)
    }
}
