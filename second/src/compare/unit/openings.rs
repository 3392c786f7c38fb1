//! Openings of units.

use super::calls::Calls;
use super::inputs::{any_begin, hostile_plain, least_size, length_near_limit, plain};
use crate::compare::layout::inputs::{corner, regions_of, LAST, USUAL};
use crate::compare::random::{Pool, Random};
use crate::link::layout::{round_up, ALIGNMENTS, LARGEST_REGION};
use crate::link::unit::{Opening, Plain};

/// Openings of one batch.
const BATCH: usize = 64;

/// A good region for every alignment, far from the ones beside it.
const APART: [u32; 2] = [0x4000_0000, 0x4000_1000];

/// Transmit begin and end, receive begin and end, alignment, and the number.
type Bench = ([u32; 5], u32);

#[rustfmt::skip]
const BENCH: [Bench; 24] = [
    // The least regions, touching and apart.
    ([0x2007_0000, 0x2007_0020, 0x2007_0020, 0x2007_0040, 4], 0),
    ([0x2007_0020, 0x2007_0040, 0x2007_0000, 0x2007_0020, 4], 0),
    ([0x2007_0000, 0x2007_0028, 0x2008_0000, 0x2008_0028, 8], 0),
    ([0x2007_0000, 0x2007_0200, 0x2007_0200, 0x2007_0400, 256], 0),
    ([0x0000_0000, 0x0010_0000, 0xFFEF_FFFF, 0xFFFF_FFFF, 32], 0),
    // A byte less, at either end of either region.
    ([0x2007_0000, 0x2007_001F, 0x2007_0020, 0x2007_0040, 4], 4),
    ([0x2007_0001, 0x2007_0020, 0x2007_0020, 0x2007_0040, 4], 4),
    ([0x2007_0000, 0x2007_0020, 0x2007_0020, 0x2007_003F, 4], 4),
    ([0x2007_0000, 0x2007_0020, 0x2007_0021, 0x2007_0040, 4], 4),
    ([0x2007_0000, 0x2007_0020, 0x2008_0000, 0x2008_0028, 8], 4),
    // Begin rounds behind end, and behind 2^32.
    ([0x2007_0001, 0x2007_00FF, 0x2008_0000, 0x2008_0200, 256], 4),
    ([0xFFFF_FF01, 0xFFFF_FFFF, 0x2008_0000, 0x2008_0200, 256], 4),
    // One shared byte, one inside the other, the same, raw bytes alone.
    ([0x2007_0000, 0x2007_0020, 0x2007_001F, 0x2007_0044, 4], 5),
    ([0x2007_001F, 0x2007_0044, 0x2007_0000, 0x2007_0020, 4], 5),
    ([0x2007_0000, 0x2007_0100, 0x2007_0040, 0x2007_0080, 4], 5),
    ([0x2007_0040, 0x2007_0080, 0x2007_0000, 0x2007_0100, 4], 5),
    ([0x2007_0000, 0x2007_0020, 0x2007_0000, 0x2007_0020, 4], 5),
    ([0x2007_0000, 0x2007_0081, 0x2007_0080, 0x2007_0100, 32], 5),
    // Bounds, and which check comes first.
    ([0x2007_0020, 0x2007_0020, 0x2008_0000, 0x2008_0020, 4], 3),
    ([0x2007_0000, 0x2017_0001, 0x2018_0000, 0x2018_0020, 4], 3),
    ([0x2007_0000, 0x2007_0020, 0x2008_0020, 0x2008_0000, 4], 3),
    ([0x2007_0000, 0x2007_0010, 0x2007_0000, 0x2007_0000, 4], 4),
    ([0x2007_0000, 0x2007_0020, 0x2007_0000, 0x2007_0010, 4], 4),
    ([0x2007_0020, 0x2007_0000, 0x2007_0000, 0x2007_0010, 12], 1),
];

/// What is stated beforehand.
pub fn bench(calls: &mut Calls, _: &mut Random, _: &Pool) {
    for ([transmit_begin, transmit_end, receive_begin, receive_end, alignment], number) in BENCH {
        let opening = Opening {
            transmit_begin,
            transmit_end,
            receive_begin,
            receive_end,
            alignment,
        };
        calls.open(&opening, Some(number));
    }
}

/// Lengths by single bytes around the least and the largest region, as the
/// transmit and as the receive region.
pub fn every_length(calls: &mut Calls, _: &mut Random, _: &Pool) {
    for alignment in ALIGNMENTS {
        let a = i64::from(alignment);
        let limits = [least_size(alignment), LARGEST_REGION];
        for length in limits
            .map(|limit| limit - 2 * a..=limit + 2 * a)
            .into_iter()
            .flatten()
        {
            for region in regions_of(alignment, length) {
                both_ways(calls, region, APART, alignment);
            }
        }
    }
}

/// Good regions, and some with several causes, for every alignment up to 600.
pub fn every_alignment(calls: &mut Calls, random: &mut Random, _: &Pool) {
    for alignment in 0..=600 {
        let least = regions_of(alignment, least_size(alignment)).next();
        for region in least
            .into_iter()
            .chain([[USUAL as u32, USUAL as u32 + 4096], [9, 9]])
        {
            both_ways(calls, region, APART, alignment);
            both_ways(calls, region, region, alignment);
            both_ways(calls, region, [corner(random), corner(random)], alignment);
        }
    }
}

/// A second region at every distance from before the first to behind it.
pub fn every_distance(calls: &mut Calls, _: &mut Random, _: &Pool) {
    for alignment in ALIGNMENTS {
        let a = i64::from(alignment);
        let least = round_up(least_size(alignment), a);
        for [length, other] in [
            [least, least],
            [least + 2 * a, least],
            [least + a + 1, 2 * least],
        ] {
            for begin in [2048, USUAL, LAST + 1 - a - 4096] {
                for distance in -other - 2..=length + 2 {
                    let regions = [(begin, length), (begin + distance, other)];
                    let [one, other] = regions.map(|(begin, length)| {
                        let region = plain(begin, length, alignment);
                        region.expect("both lie inside 32 bits")
                    });
                    open_both(calls, one, other);
                }
            }
        }
    }
}

fn both_ways(calls: &mut Calls, one: [u32; 2], other: [u32; 2], alignment: u32) {
    let [one, other] = [one, other].map(|[begin, end]| Plain {
        begin,
        end,
        alignment,
    });
    open_both(calls, one, other);
}

/// One of them to transmit in, and then the other; the first one's alignment.
fn open_both(calls: &mut Calls, one: Plain, other: Plain) {
    calls.open(&opening(one, other), None);
    calls.open(&opening(other, one), None);
}

pub fn opening(transmit: Plain, receive: Plain) -> Opening {
    Opening {
        transmit_begin: transmit.begin,
        transmit_end: transmit.end,
        receive_begin: receive.begin,
        receive_end: receive.end,
        alignment: transmit.alignment,
    }
}

/// Regions near a limit, the second one often beside the first or over it.
pub fn near_limits(calls: &mut Calls, random: &mut Random, _: &Pool) {
    for _ in 0..BATCH {
        let alignment = random.pick(&ALIGNMENTS);
        let [length, other] = [0; 2].map(|_| length_near_limit(random, alignment));
        let begin = any_begin(random, length);
        let near = random.between(-3, 3);
        let other_begin = match random.below(6) {
            0 => begin + length + near,
            1 => begin - other + near,
            2 => begin + random.between(0, length.abs()),
            3 => begin - random.between(0, other.abs()),
            _ => any_begin(random, other),
        };
        let one = plain(begin, length, alignment);
        let other = plain(other_begin, other, alignment);
        if let (Some(one), Some(other)) = (one, other) {
            open_both(calls, one, other);
        }
    }
}

/// Numbers that nobody vouches for.
pub fn any_numbers(calls: &mut Calls, random: &mut Random, _: &Pool) {
    for _ in 0..BATCH {
        let [one, other] = [0; 2].map(|_| hostile_plain(random));
        let mut opening = opening(one, other);
        if random.one_in(8) {
            opening.alignment = corner(random);
        }
        calls.open(&opening, None);
    }
}
