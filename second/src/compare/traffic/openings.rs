//! Openings of ends, good ones and refused ones.

use std::ops::RangeInclusive;

use crate::compare::layout::inputs::{corner, good_numbers, Numbers, LAST};
use crate::compare::random::Random;
use crate::compare::ring::inputs::{Place, SMALL_REGION};
use crate::link::end::Opening;
use crate::link::layout::{Request, ALIGNMENTS, LARGEST_REGION, MOST_BLOCKS};

/// Bytes that the records of one script sum up; large regions get few records.
const SUMMED_BYTES: usize = 400_000;

/// Records that let two ends get as far as a message that is viewed and
/// released.
const LEAST_RECORDS: usize = 90;

/// An opening that is accepted; most have small regions.
pub fn good(random: &mut Random) -> Opening {
    match random.below(1000) {
        0 => sized(random, 0..=LARGEST_REGION, good_numbers),
        // A message can have more than 65,535 bytes.
        1..=7 => sized(random, 70_000..=140_000, few_blocks),
        8..=15 => sized(random, 0..=1 << 15, good_numbers),
        16..=65 => sized(random, 0..=1 << 14, many_blocks),
        66..=250 => sized(random, 0..=SMALL_REGION, good_numbers),
        _ => sized(random, 0..=1024, good_numbers),
    }
}

fn few_blocks(random: &mut Random) -> Numbers {
    Numbers {
        local_blocks: random.between(1, 3) as u32,
        remote_blocks: random.between(1, 3) as u32,
        alignment: random.pick(&ALIGNMENTS),
    }
}

/// Counts at the limit, which take some space.
fn many_blocks(random: &mut Random) -> Numbers {
    let most = MOST_BLOCKS;
    Numbers {
        local_blocks: random.pick(&[1, 20, most - 1, most, most]),
        remote_blocks: random.pick(&[1, 20, most - 1, most, most]),
        alignment: random.pick(&ALIGNMENTS),
    }
}

/// Records that a script of this opening should have, more or less.
pub fn records(random: &mut Random, opening: &Opening) -> usize {
    let regions = [opening.transmit(), opening.receive()];
    let lengths = regions.map(|region| region.end.saturating_sub(region.begin) as usize);
    let most = SUMMED_BYTES / lengths.iter().sum::<usize>().max(1);
    let most = most.clamp(LEAST_RECORDS, 300) as i64;
    random.between(most / 3, most) as usize
}

/// With regions of so many bytes.
fn sized(
    random: &mut Random,
    lengths: RangeInclusive<i64>,
    numbers: fn(&mut Random) -> Numbers,
) -> Opening {
    loop {
        let Numbers {
            local_blocks: transmit_blocks,
            remote_blocks: receive_blocks,
            alignment,
        } = numbers(random);
        let with_counts = |local_blocks, remote_blocks| Numbers {
            local_blocks,
            remote_blocks,
            alignment,
        };
        let transmit = with_counts(transmit_blocks, receive_blocks);
        let receive = with_counts(receive_blocks, transmit_blocks);
        // Which of them is lower says who is the initiator.
        let mut lower_first = [(transmit, true), (receive, false)];
        if random.one_in(2) {
            lower_first.reverse();
        }
        let [(lower, transmit_is_lower), (upper, _)] = lower_first;
        let Some([lower, upper]) = regions(random, lower, upper, &lengths) else {
            continue;
        };
        let [transmit, receive] = if transmit_is_lower {
            [lower, upper]
        } else {
            [upper, lower]
        };
        return Opening {
            transmit_begin: transmit.begin,
            transmit_end: transmit.end,
            receive_begin: receive.begin,
            receive_end: receive.end,
            transmit_blocks,
            receive_blocks,
            alignment,
        };
    }
}

/// Two accepted regions, one behind the other, if the numbers allow it.
fn regions(
    random: &mut Random,
    lower: Numbers,
    upper: Numbers,
    lengths: &RangeInclusive<i64>,
) -> Option<[Request; 2]> {
    let lower_length = region_length(random, lower, lengths)?;
    let upper_length = region_length(random, upper, lengths)?;
    let gap = match random.below(4) {
        0 | 1 => 0,
        2 => random.between(1, 300),
        _ => random.between(1, 1 << 30),
    };
    let last = LAST - lower_length - gap - upper_length;
    let mut begin = match random.below(16) {
        0 => 0,
        1 => last,
        _ => random.between(0, last),
    };
    if random.one_in(2) {
        begin -= begin % i64::from(lower.alignment);
    }
    let lower = lower.region_of(begin, lower_length)?;
    let upper = upper.region_of(i64::from(lower.end) + gap, upper_length)?;
    // Rounding can leave too little.
    Place::new(lower)?;
    Place::new(upper)?;
    Some([lower, upper])
}

/// One of the lengths that can be accepted, often near the least or the most.
fn region_length(
    random: &mut Random,
    numbers: Numbers,
    lengths: &RangeInclusive<i64>,
) -> Option<i64> {
    let [_, _, accepted, _] = numbers.size_limits();
    let least = accepted.max(*lengths.start());
    let most = *lengths.end();
    if least > most {
        return None;
    }
    let spare = most - least;
    Some(match random.below(8) {
        0 | 1 => least,
        2 | 3 => least + random.between(0, spare.min(3 * i64::from(numbers.alignment))),
        4 => most,
        _ => least + random.between(0, spare),
    })
}

/// A good opening with something changed, so that most are refused.
pub fn spoiled(random: &mut Random) -> Opening {
    let mut opening = good(random);
    for _ in 0..random.between(1, 2) {
        spoil(random, &mut opening);
    }
    opening
}

/// Changes something; an earlier change may have left a region of no length.
fn spoil(random: &mut Random, opening: &mut Opening) {
    match random.below(7) {
        0 => opening.alignment = bad_number(random, |number| ALIGNMENTS.contains(&number)),
        1 => {
            let count = bad_number(random, |number| (1..=MOST_BLOCKS).contains(&number));
            if random.one_in(2) {
                opening.transmit_blocks = count;
            } else {
                opening.receive_blocks = count;
            }
        }
        2 => spoil_lengths(random, opening, |random, _| match random.below(3) {
            0 => 0,
            1 => random.any(),
            _ => LARGEST_REGION as u32 + 1 + random.below(3) as u32,
        }),
        3 => spoil_lengths(random, opening, |random, length| {
            random.below(u64::from(length) + 1) as u32
        }),
        4 | 5 => overlap(random, opening),
        _ => {
            for number in [
                &mut opening.transmit_begin,
                &mut opening.transmit_end,
                &mut opening.receive_begin,
                &mut opening.receive_end,
            ] {
                if random.one_in(3) {
                    *number = corner(random);
                }
            }
        }
    }
}

/// A number of two bytes that is not good.
fn bad_number(random: &mut Random, good: impl Fn(u32) -> bool) -> u32 {
    loop {
        let number = corner(random) & 0xFFFF;
        if !good(number) {
            return number;
        }
    }
}

/// Gives one region, or both, another length.
fn spoil_lengths(
    random: &mut Random,
    opening: &mut Opening,
    new_length: impl Fn(&mut Random, u32) -> u32,
) {
    let which = random.below(3);
    if which != 0 {
        let begin = opening.transmit_begin;
        let length = new_length(random, opening.transmit_end.wrapping_sub(begin));
        opening.transmit_end = begin.wrapping_add(length);
    }
    if which != 1 {
        let begin = opening.receive_begin;
        let length = new_length(random, opening.receive_end.wrapping_sub(begin));
        opening.receive_end = begin.wrapping_add(length);
    }
}

/// Moves the receive region so that it shares a byte, or just does not.
fn overlap(random: &mut Random, opening: &mut Opening) {
    let length = opening.receive_end.wrapping_sub(opening.receive_begin);
    let begin = match random.below(5) {
        0 => opening.transmit_begin,
        1 => opening.transmit_end.wrapping_sub(1),
        2 => opening.transmit_end,
        3 => opening.transmit_begin.wrapping_sub(length).wrapping_add(1),
        _ => {
            let shift = random.below(u64::from(length) + 1) as u32;
            opening.transmit_begin.wrapping_add(shift)
        }
    };
    opening.receive_begin = begin;
    opening.receive_end = begin.wrapping_add(length);
}
