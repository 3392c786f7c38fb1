//! Starts, and the question whether a content is that of a start.

use super::calls::{Call, Calls};
use super::causes::{self, Asked, START_CHOICES};
use super::inputs::{answer_length, Place, SMALL_REGION};
use super::two_sides::TwoSides;
use crate::compare::layout::inputs::MIXTURES;
use crate::compare::proved;
use crate::compare::random::{Pool, Random};
use crate::compare::twin::Twin;
use crate::link::outcome::ANSWER;
use crate::link::ring::is_start;

/// The start content as it is stated.
pub const STATED: [u8; START_LENGTH] = *b"Em1l1K0rn3li4";

pub const START_LENGTH: usize = 13;

/// Places of a region's read index, write index and data.
pub type Parts = [usize; 3];

/// The stated bytes at the stated places.
pub fn bench_start(calls: &mut Calls, random: &mut Random, pool: &Pool, bench: (Place, Parts)) {
    let (place, [read_index, write_index, data]) = bench;
    let mut sides = TwoSides::new(place, pool.slice(random, place.length()), 0);
    let mut expected = sides.region().to_vec();
    expected[read_index..][..4].copy_from_slice(&[0, 0, 0, 0]);
    expected[write_index..][..4].copy_from_slice(&[20, 0, 0, 0]);
    let packet = [&[0x00, 0x0D, 0, 0][..], &STATED, &[0, 0, 0]].concat();
    expected[data..][..packet.len()].copy_from_slice(&packet);

    sides.start(calls, &STATED);
    sides.check_region(calls, &expected);
}

pub fn start_causes(calls: &mut Calls, random: &mut Random, pool: &Pool) {
    for place in Place::small() {
        for choice in START_CHOICES {
            let asked = Asked::any(random, choice);
            causes::start(calls, random, pool, place, asked);
        }
    }
}

/// Regions with any bytes in them, and openings of every kind. An accepted
/// start leaves a ring that can be used.
pub fn hostile_starts(calls: &mut Calls, random: &mut Random, pool: &Pool, share: u64) {
    let mut left = share;
    while left > 0 {
        let made = if random.one_in(2) {
            any_region(calls, random, pool)
        } else {
            any_opening(calls, random, pool)
        };
        left = left.saturating_sub(made);
    }
}

/// A start, and what comes before and after it. Gives the calls made.
fn any_region(calls: &mut Calls, random: &mut Random, pool: &Pool) -> u64 {
    let place = Place::any(random, SMALL_REGION);
    let before = place.index(random);
    let mut sides = TwoSides::new(place, pool.slice(random, place.length()), before);
    let length = |random: &mut Random| random.below(24) as usize;
    let pushes = random.below(3);
    for _ in 0..pushes {
        let length = length(random);
        sides.push(calls, pool.slice(random, length));
    }
    sides.start(calls, &STATED);
    sides.reader_opens();
    let pushed = length(random);
    sides.push(calls, pool.slice(random, pushed));
    // The start, the content behind it, and an empty ring.
    for _ in 0..3 {
        let length = length(random);
        sides.pull(calls, pool.slice(random, length));
    }
    pushes + 5
}

/// A start that may be refused. Gives the calls made.
fn any_opening(calls: &mut Calls, random: &mut Random, pool: &Pool) -> u64 {
    let (_, mixture) = random.pick(&MIXTURES);
    let request = mixture(random);
    let whole = i64::from(request.end) - i64::from(request.begin);
    let lent_length = if (0..=SMALL_REGION).contains(&whole) && !random.one_in(8) {
        whole
    } else {
        random.between(0, 256)
    };
    let mut region = Twin::new(pool.slice(random, lent_length as usize));
    let call = Call {
        request,
        own_index: 0,
        answer_length: answer_length(random, ANSWER),
        stated: None,
    };
    calls.start(&call, &mut region);
    1
}

/// Contents that are the start content, nearly it, and others.
pub fn start_contents(calls: &mut Calls, random: &mut Random, pool: &Pool) {
    ask(calls, &STATED);
    for at in 0..STATED.len() {
        for byte in 0..=u8::MAX {
            let mut content = STATED;
            content[at] = byte;
            ask(calls, &content);
        }
    }
    for byte in 0..=u8::MAX {
        ask(calls, &[&STATED[..], &[byte]].concat());
        ask(calls, &[&[byte], &STATED[..]].concat());
    }
    for begin in 0..=STATED.len() {
        for end in begin..=STATED.len() {
            ask(calls, &STATED[begin..end]);
        }
    }
    for _ in 0..100_000 {
        let mut content = STATED.to_vec();
        for _ in 0..random.below(3) {
            let at = random.below(content.len() as u64) as usize;
            match random.below(4) {
                0 => content[at] = random.any() as u8,
                1 => content.swap(at, 0),
                2 => content[at] ^= 1 << random.below(8),
                _ => content.resize(1 + random.below(32) as usize, 0),
            }
        }
        ask(calls, &content);
        let length = random.below(20) as usize;
        ask(calls, pool.slice(random, length));
    }
}

fn ask(calls: &mut Calls, content: &[u8]) {
    let stated = content == STATED;
    let second = is_start(content);
    let proved = proved::is_start(content);
    calls.group.input();
    if second != stated || proved != u32::from(stated) {
        calls.group.mismatch(|| {
            format!(
                "start question on {content:02x?}\n  stated: {stated}\n  second: {second}\n  \
                 proved: {proved}"
            )
        });
    }
}
