//! Packets that claim more than what is unread: all of it is dropped, and the
//! ring goes on.

use super::causes::longer_than;
use super::inputs::{buffer_length, multiple, Place};
use super::two_sides::TwoSides;
use super::{large_places, starts, Calls};
use crate::compare::random::{Pool, Random};
use crate::link::ring::{LONGEST_CONTENT, UNIT};

/// Every start and every number of unread bytes in small rings; in large ones
/// the most that a packet can claim to be longer than.
pub fn broken_packets(calls: &mut Calls, random: &mut Random, pool: &Pool) {
    for place in (32..=128).step_by(UNIT).flat_map(Place::few_blocks) {
        for start in starts(place) {
            for unread in (UNIT..place.data_length).step_by(UNIT) {
                one_drop(calls, random, pool, place, [start as usize, unread]);
            }
        }
    }
    for place in large_places() {
        let last = place.data_length - UNIT;
        for start in [0, UNIT, last] {
            for unread in [65_528, 65_532, 65_536] {
                one_drop(calls, random, pool, place, [start, unread.min(last)]);
            }
        }
    }
}

/// Drops packets of so many bytes. Both sides can use the whole ring then.
fn one_drop(
    calls: &mut Calls,
    random: &mut Random,
    pool: &Pool,
    place: Place,
    [start, unread]: [usize; 2],
) {
    let mut sides = TwoSides::new(place, pool.slice(random, place.length()), start as u32);
    push_packets(calls, random, pool, &mut sides, unread);
    pull_broken(calls, random, pool, &mut sides);
    pull(calls, random, pool, &mut sides);

    let longest = (place.data_length - 2 * UNIT).min(LONGEST_CONTENT);
    sides.push(calls, pool.slice(random, longest));
    for _ in 0..2 {
        pull(calls, random, pool, &mut sides);
    }
}

/// Pushes packets that take so many bytes, a multiple of 4.
fn push_packets(
    calls: &mut Calls,
    random: &mut Random,
    pool: &Pool,
    sides: &mut TwoSides,
    bytes: usize,
) {
    while sides.unread() < bytes {
        let most = bytes - sides.unread() - UNIT;
        let longest = multiple(random, most);
        // Up to three bytes of padding.
        let length = longest.saturating_sub(random.below(4) as usize);
        sides.push(calls, pool.slice(random, length));
    }
}

fn pull(calls: &mut Calls, random: &mut Random, pool: &Pool, sides: &mut TwoSides) {
    let length = buffer_length(random, sides.unread());
    sides.pull(calls, pool.slice(random, length));
}

/// Pulls when the first of the packets is broken.
pub fn pull_broken(calls: &mut Calls, random: &mut Random, pool: &Pool, sides: &mut TwoSides) {
    let claimed = longer_than(random, sides.unread() - UNIT);
    let length = buffer_length(random, sides.unread());
    sides.pull_broken(calls, claimed, pool.slice(random, length));
}
