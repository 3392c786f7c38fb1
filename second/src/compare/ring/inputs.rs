//! Inputs of the ring comparison: regions, indexes and lengths.

use crate::compare::layout::inputs::{good_numbers, Numbers, LAST, USUAL};
use crate::compare::random::Random;
use crate::link::end::Region;
use crate::link::layout::{lay_out, ring_header, Request, Ringed, ALIGNMENTS};
use crate::link::ring::{Ring, LONGEST_CONTENT, UNIT};

/// The most bytes of a region that is called small.
pub const SMALL_REGION: i64 = 4096;

/// An accepted region, one with blocks or a plain one.
#[derive(Clone, Copy)]
pub struct Place<R = Request> {
    pub request: R,
    /// Bytes of the raw region.
    length: usize,
    /// Data bytes of its ring.
    pub data_length: usize,
}

impl Place {
    /// A region of an open end.
    pub fn of(region: &Region) -> Self {
        Place::new(region.request).expect("an accepted region")
    }

    /// A region whose ring has exactly that many data bytes, if the numbers
    /// allow it.
    pub fn with_data(numbers: Numbers, data_length: usize) -> Option<Self> {
        let a = i64::from(numbers.alignment);
        let blocks = i64::from(numbers.local_blocks) * a;
        let length = ring_header(a) + data_length as i64 + blocks;
        let place = Place::new(numbers.region_of(USUAL, length)?)?;
        (place.data_length == data_length).then_some(place)
    }

    /// Regions of few blocks whose ring has exactly that many data bytes, one
    /// for each alignment that allows it.
    pub fn few_blocks(data_length: usize) -> impl Iterator<Item = Self> {
        // At alignment 4, a single block leaves no data bytes over.
        let with_blocks = move |alignment, local_blocks| {
            let remote_blocks = (data_length as u32 / 8).checked_sub(2 + local_blocks)?;
            let numbers = Numbers {
                local_blocks,
                remote_blocks,
                alignment,
            };
            Place::with_data(numbers, data_length)
        };
        ALIGNMENTS
            .into_iter()
            .filter_map(move |a| with_blocks(a, 1).or_else(|| with_blocks(a, 2)))
    }

    /// Small regions for every alignment and some counts, most of them off
    /// alignment.
    pub fn small() -> impl Iterator<Item = Self> {
        let numbers = Numbers::product(&ALIGNMENTS, &[1, 2, 32, 256]);
        (0..).zip(numbers).map(|(gap, numbers)| {
            let a = i64::from(numbers.alignment);
            let [_, _, least, _] = numbers.size_limits();
            // Rounding takes at most the two units.
            numbers
                .region_of(USUAL + gap % a, least + 2 * a)
                .and_then(Place::new)
                .expect("a region with space for rounding")
        })
    }

    /// Any region of up to `most` bytes, and often of just as many; otherwise
    /// small ones are as frequent as large ones.
    pub fn any(random: &mut Random, most: i64) -> Self {
        loop {
            let numbers = good_numbers(random);
            let [_, _, least, _] = numbers.size_limits();
            if least > most {
                continue;
            }
            let spare = (most - least) >> random.below(20);
            let length = if random.one_in(16) {
                most
            } else {
                least + random.between(0, spare)
            };
            let mut begin = random.between(0, LAST - length);
            if random.one_in(2) {
                begin -= begin % i64::from(numbers.alignment);
            }
            // Rounding can leave too little.
            let place = numbers.region_of(begin, length).and_then(Place::new);
            if let Some(place) = place {
                return place;
            }
        }
    }

    /// Where the data ends and the blocks begin.
    pub fn blocks_at(&self) -> usize {
        let layout = lay_out(&self.request).expect("an accepted region");
        (layout.blocks_begin - self.request.begin) as usize
    }
}

impl<R: Ringed> Place<R> {
    pub fn new(request: R) -> Option<Self> {
        let ring = request.ring_place().ok()?;
        Some(Place {
            request,
            length: ring.raw_length,
            data_length: ring.data.len(),
        })
    }

    /// Bytes of the raw region.
    pub fn length(&self) -> usize {
        self.length
    }

    /// The ring in the bytes of the raw region.
    pub fn ring<'a>(&self, bytes: &'a mut [u8]) -> Ring<'a> {
        Ring::find(&self.request, bytes).expect("an accepted region, lent whole")
    }

    /// An index where a packet can begin.
    pub fn index(&self, random: &mut Random) -> u32 {
        multiple(random, self.data_length - UNIT) as u32
    }

    /// An index where no packet can begin.
    pub fn bad_index(&self, random: &mut Random) -> u32 {
        let data_length = self.data_length as u32;
        loop {
            // Some of them a narrow or careless computation takes for good.
            let good = self.index(random);
            let index = match random.below(8) {
                0 => data_length,
                1 => data_length + 4 * random.below(4) as u32,
                2 => good + random.between(1, 3) as u32,
                3 => good + data_length,
                4 => good | 1 << random.between(8, 31),
                5 => good.swap_bytes(),
                6 => u32::MAX - random.below(16) as u32,
                _ => random.any(),
            };
            if index >= data_length || index % 4 != 0 {
                return index;
            }
        }
    }
}

/// A multiple of 4, at most `most`.
pub fn multiple(random: &mut Random, most: usize) -> usize {
    UNIT * random.below((most / UNIT) as u64 + 1) as usize
}

/// The length of a content, for a ring where a packet of `space` bytes fits.
pub fn content_length(random: &mut Random, space: usize) -> usize {
    let whole = space as i64;
    let length = match random.below(16) {
        0..=7 => 3,
        8..=10 => random.between(0, 40),
        11..=13 => whole - 4 + random.between(-9, 5),
        14 => random.between(0, whole),
        _ if random.one_in(16) => LONGEST_CONTENT as i64 + random.between(-3, 3),
        _ => random.between(0, 12),
    };
    length.max(0) as usize
}

/// The length of a buffer, for a ring where `most` bytes can be unread.
pub fn buffer_length(random: &mut Random, most: usize) -> usize {
    let bound = match random.below(8) {
        0 => 1,
        1..=4 => 8,
        5 | 6 => 48,
        _ => most as u64 + 8,
    };
    random.below(bound) as usize
}

/// The length of an answer of so many values; some have no space for all of
/// them, some have more.
pub fn answer_length(random: &mut Random, values: usize) -> usize {
    random.below(2 * values as u64 + 1) as usize
}
