//! The comparison of the two rings.

mod broken;
pub mod calls;
pub mod causes;
pub mod hostile;
pub mod inputs;
pub mod start;
mod two_sides;

use std::ops::Range;

use crate::compare::layout::inputs::Numbers;
use crate::compare::random::{Pool, Random};
use crate::compare::report::Report;
use crate::compare::Settings;
use crate::link::layout::{Request, LARGEST_REGION};
use crate::link::outcome::ANSWER;
use crate::link::ring::UNIT;
use broken::{broken_packets, pull_broken};
use calls::{Calls, Tallies};
use causes::{Asked, Choice, CHOICES, START_CHOICES};
use hostile::{hostile_partner, openings};
use inputs::{buffer_length, content_length, Place, SMALL_REGION};
use start::{bench_start, hostile_starts, start_causes, start_contents, Parts};
use two_sides::TwoSides;

/// A group with its own number of calls.
type Fixed = fn(&mut Calls, &mut Random, &Pool);

const FIXED: [(&str, Fixed); 12] = [
    ("ring bench: data, address 2, block 5", bench_packet),
    (
        "ring bench: 64 data bytes take seven packets",
        seven_packets,
    ),
    ("ring: every start in 32 to 256 data bytes", wraps),
    ("ring: buffers shorter and longer than the content", buffers),
    ("ring: contents around 65,535 bytes", longest_contents),
    ("ring: push with every choice of causes", push_causes),
    ("ring: pull with every choice of causes", pull_causes),
    ("ring bench: start", bench_starts),
    ("ring: start with every choice of causes", start_causes),
    (
        "ring: contents asked whether they are a start",
        start_contents,
    ),
    (
        "ring: broken packets, all unread bytes dropped",
        broken_packets,
    ),
    ("ring: answers of 0 to 5 elements", answers),
];

/// A group that makes as many calls as it is told.
type Mixture = fn(&mut Calls, &mut Random, &Pool, u64);

const MIXTURES: [(&str, Mixture); 8] = [
    ("order of packets, nearly full rings", full_traffic),
    ("two sides, small regions", small_traffic),
    ("two sides, regions of every length", large_traffic),
    ("hostile partner", hostile_partner),
    ("hostile caller, causes mixed", mixed_causes),
    ("hostile caller, openings of every kind", openings),
    ("starts in regions with any bytes", hostile_starts),
    ("two sides, packets that break", broken_traffic),
];

/// Content and packet of the bench: data, address 2, block 5.
const BENCH_CONTENT: [u8; 3] = [0x00, 0x02, 0x05];
const BENCH_PACKET: [u8; 8] = [0x00, 0x03, 0x00, 0x00, 0x00, 0x02, 0x05, 0x00];

/// Runs the whole comparison.
pub fn run(settings: &Settings, report: &mut Report) {
    let mut tallies = Tallies::default();
    let pool = Pool::new(&mut Random::new(settings.seed, 0));

    for (stream, (name, run)) in (1..).zip(FIXED) {
        report.group(name, |group| {
            let mut random = Random::new(settings.seed, stream);
            let tallies = &mut tallies;
            run(&mut Calls { group, tallies }, &mut random, &pool);
        });
    }
    let share = settings.cases.div_ceil(MIXTURES.len() as u64);
    // Streams far from those above, which more groups would move.
    for (stream, (name, run)) in (100..).zip(MIXTURES) {
        report.group(&format!("ring random: {name}"), |group| {
            let mut random = Random::new(settings.seed, stream);
            let tallies = &mut tallies;
            run(&mut Calls { group, tallies }, &mut random, &pool, share);
        });
    }
    report.group("ring: every outcome occurred", |group| {
        let Tallies { start, push, pull } = &tallies;
        start.check(group, "start", &[0, 1, 2, 3, 4, 6]);
        push.check(group, "push", &[0, 1, 2, 3, 4, 6, 7, 10, 11]);
        pull.check(group, "pull", &[0, 1, 2, 3, 4, 6, 7, 8, 9]);
    });
}

/// Three regions, and where the read index, the write index and the data begin.
fn bench_places() -> [(Place, Parts); 3] {
    [
        // Begin, end, own blocks, other blocks, alignment.
        ([0x2007_0000, 0x2007_004C, 1, 5, 4], [0, 4, 8]),
        ([0x2007_0000, 0x2007_0800, 16, 32, 32], [0, 32, 36]),
        ([0x2007_0010, 0x2007_07F0, 16, 32, 32], [16, 48, 52]),
    ]
    .map(|(numbers, parts)| {
        let [begin, end, local_blocks, remote_blocks, alignment] = numbers;
        let place = Place::new(Request {
            begin,
            end,
            local_blocks,
            remote_blocks,
            alignment,
        });
        (place.expect("an accepted region"), parts)
    })
}

/// The stated bytes at the stated places.
fn bench_packet(calls: &mut Calls, random: &mut Random, pool: &Pool) {
    for (place, [read_index, write_index, data]) in bench_places() {
        let mut sides = TwoSides::new(place, pool.slice(random, place.length()), 0);
        let mut expected = sides.region().to_vec();

        sides.push(calls, &BENCH_CONTENT);
        expected[write_index..][..4].copy_from_slice(&[8, 0, 0, 0]);
        expected[data..][..8].copy_from_slice(&BENCH_PACKET);
        sides.check_region(calls, &expected);

        sides.pull(calls, &[0xFF; 5]);
        expected[read_index..][..4].copy_from_slice(&[8, 0, 0, 0]);
        sides.check_region(calls, &expected);
    }
}

fn bench_starts(calls: &mut Calls, random: &mut Random, pool: &Pool) {
    for bench in bench_places() {
        bench_start(calls, random, pool, bench);
    }
}

/// The eighth is refused, and after the seven the ring is empty; from every
/// start.
fn seven_packets(calls: &mut Calls, random: &mut Random, pool: &Pool) {
    for place in Place::few_blocks(64) {
        for start in starts(place) {
            let mut sides = TwoSides::new(place, pool.slice(random, place.length()), start);
            for _ in 1..=8 {
                sides.push(calls, &BENCH_CONTENT);
            }
            if sides.packets() != 7 {
                let packets = sides.packets();
                calls
                    .group
                    .mismatch(|| format!("{packets} packets fit, stated are 7"));
            }
            for _ in 1..=8 {
                sides.pull(calls, &[0xFF; 3]);
            }
        }
    }
}

/// Every index where a packet can begin.
fn starts(place: Place) -> impl Iterator<Item = u32> {
    (0..place.data_length as u32).step_by(UNIT)
}

/// One packet at every place of small rings, then an empty ring.
fn wraps(calls: &mut Calls, random: &mut Random, pool: &Pool) {
    for data_length in (32..=256).step_by(UNIT) {
        for place in Place::few_blocks(data_length) {
            for start in starts(place) {
                for length in 0..=40 {
                    let buffer_length = length + random.below(4) as usize;
                    one_packet(calls, random, pool, place, start, [length, buffer_length]);
                }
            }
        }
    }
}

/// Pushes one content and pulls it out again.
fn one_packet(
    calls: &mut Calls,
    random: &mut Random,
    pool: &Pool,
    place: Place,
    start: u32,
    [content_length, buffer_length]: [usize; 2],
) {
    let mut sides = TwoSides::new(place, pool.slice(random, place.length()), start);
    sides.push(calls, pool.slice(random, content_length));
    for _ in 0..2 {
        sides.pull(calls, pool.slice(random, buffer_length));
    }
}

fn buffers(calls: &mut Calls, random: &mut Random, pool: &Pool) {
    for place in Place::few_blocks(60) {
        for start in starts(place) {
            for length in 0..=24 {
                for buffer_length in 0..=length + 8 {
                    one_packet(calls, random, pool, place, start, [length, buffer_length]);
                }
            }
        }
    }
}

/// Rings in which the longest content fits, or nearly.
fn large_places() -> [Place; 4] {
    // Only the most blocks leave that much data, at the largest alignment.
    let numbers = Numbers {
        local_blocks: 256,
        remote_blocks: 256,
        alignment: 256,
    };
    [65_276, 65_532, 65_788, 69_628]
        .map(|length| Place::with_data(numbers, length).expect("an accepted region"))
}

/// In rings where the longest content fits and where it does not.
fn longest_contents(calls: &mut Calls, random: &mut Random, pool: &Pool) {
    for place in Place::few_blocks(32).chain(large_places()) {
        let last = place.data_length as u32 - 4;
        for start in [0, 4, last / 8 * 4, last] {
            for length in 65_520..=65_540 {
                let buffer_length = random.pick(&[0, 3, length - 1, length, length + 1]);
                one_packet(calls, random, pool, place, start, [length, buffer_length]);
            }
        }
    }
}

/// Each outcome of each call, in answers without space for all numbers and in
/// longer ones.
fn answers(calls: &mut Calls, random: &mut Random, pool: &Pool) {
    for place in Place::small() {
        for answer_length in 0..=ANSWER + 2 {
            for asked in one_cause(CHOICES, answer_length) {
                causes::push(calls, random, pool, place, asked);
                causes::pull(calls, random, pool, place, asked);
            }
            for asked in one_cause(START_CHOICES, answer_length) {
                causes::start(calls, random, pool, place, asked);
            }
        }
    }
}

/// Of these choices those with one cause or none.
fn one_cause(choices: Range<Choice>, answer_length: usize) -> impl Iterator<Item = Asked> {
    choices
        .filter(|choice| choice.count_ones() <= 1)
        .map(move |choice| Asked {
            choice,
            answer_length,
        })
}

fn push_causes(calls: &mut Calls, random: &mut Random, pool: &Pool) {
    for place in Place::small() {
        for choice in CHOICES {
            let asked = Asked::any(random, choice);
            causes::push(calls, random, pool, place, asked);
        }
    }
}

fn pull_causes(calls: &mut Calls, random: &mut Random, pool: &Pool) {
    for place in Place::small() {
        for choice in CHOICES {
            let asked = Asked::any(random, choice);
            causes::pull(calls, random, pool, place, asked);
        }
    }
}

/// Rings of few bytes, so that they are often full.
fn full_traffic(calls: &mut Calls, random: &mut Random, pool: &Pool, share: u64) {
    let places: Vec<Place> = (32..=256)
        .step_by(UNIT)
        .flat_map(Place::few_blocks)
        .collect();
    let any_of_them = |random: &mut Random| random.pick(&places);
    traffic(calls, random, pool, share, any_of_them, never);
}

fn small_traffic(calls: &mut Calls, random: &mut Random, pool: &Pool, share: u64) {
    traffic(calls, random, pool, share, any_small, never);
}

fn large_traffic(calls: &mut Calls, random: &mut Random, pool: &Pool, share: u64) {
    let any_large = |random: &mut Random| Place::any(random, LARGEST_REGION);
    traffic(calls, random, pool, share, any_large, never);
}

/// One pull in four finds its packet broken.
fn broken_traffic(calls: &mut Calls, random: &mut Random, pool: &Pool, share: u64) {
    traffic(calls, random, pool, share, any_small, |random| {
        random.one_in(4)
    });
}

fn any_small(random: &mut Random) -> Place {
    Place::any(random, SMALL_REGION)
}

fn never(_: &mut Random) -> bool {
    false
}

/// Two sides that push and pull, in one ring after another.
fn traffic(
    calls: &mut Calls,
    random: &mut Random,
    pool: &Pool,
    share: u64,
    next_place: impl Fn(&mut Random) -> Place,
    breaks: impl Fn(&mut Random) -> bool,
) {
    // Every call compares the whole region, so large ones get fewer calls.
    const BYTES: usize = 1 << 21;
    let mut left = share;
    while left > 0 {
        let place = next_place(random);
        let calls_here = left.min((BYTES / place.length()).clamp(8, 400) as u64);
        left -= calls_here;

        let start = place.index(random);
        let mut sides = TwoSides::new(place, pool.slice(random, place.length()), start);
        // Out of eight calls; more than half fills the ring, less drains it.
        let mut pushes = 5;
        for _ in 0..calls_here {
            if random.one_in(32) {
                pushes = random.between(1, 7) as u64;
            }
            if random.below(8) < pushes {
                let length = content_length(random, sides.space());
                sides.push(calls, pool.slice(random, length));
            } else if sides.packets() > 0 && breaks(random) {
                pull_broken(calls, random, pool, &mut sides);
            } else {
                let length = buffer_length(random, place.data_length);
                sides.pull(calls, pool.slice(random, length));
            }
        }
    }
}

/// Any of the causes, in regions of many kinds.
fn mixed_causes(calls: &mut Calls, random: &mut Random, pool: &Pool, share: u64) {
    for _ in 0..share {
        let place = Place::any(random, SMALL_REGION);
        // Two causes out of the eight, on average.
        let choice = random.any() & random.any() & (CHOICES.end - 1);
        let asked = Asked::any(random, choice);
        if random.one_in(2) {
            causes::push(calls, random, pool, place, asked);
        } else {
            causes::pull(calls, random, pool, place, asked);
        }
    }
}
