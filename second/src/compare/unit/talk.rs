//! Two units with swapped regions that talk, and queues beside them that say
//! what must come of each of their calls.
//!
//! Each talk is had by four pairs at once: both units answered by the same
//! side, and each side with the other one as its partner.

use std::collections::VecDeque;

use super::calls::{describe, Calls};
use super::inputs::{any_begin, any_place, buffer_length, plain};
use super::openings::opening;
use super::side::{Action, Lent, Side};
use crate::compare::random::{Pool, Random};
use crate::compare::ring::calls::Call;
use crate::compare::ring::inputs::{content_length, Place, SMALL_REGION};
use crate::compare::ring::start::STATED;
use crate::compare::twin::PATTERN;
use crate::link::layout::ALIGNMENTS;
use crate::link::outcome::{Outcome, ANSWER};
use crate::link::refusal::outcome_name;
use crate::link::ring::{packet_length, LONGEST_CONTENT};
use crate::link::unit::{self, Plain};

/// Two units by who answers their calls, and the memory of both regions.
struct Pair {
    name: &'static str,
    sides: [Side; 2],
    regions: [Vec<u8>; 2],
}

/// Region 0 is the one that unit 0 transmits in, region 1 that of unit 1.
struct Talk {
    places: [Place<Plain>; 2],
    pairs: [Pair; 4],
    write_indexes: [u32; 2],
    read_indexes: [u32; 2],
    /// Contents sent in a region and not yet received.
    queues: [VecDeque<Vec<u8>>; 2],
}

/// A step of a talk: which unit makes the call, and with which region.
struct Step<'a> {
    unit: usize,
    region: usize,
    own_index: u32,
    action: Action<'a>,
    stated: Outcome,
    /// The buffer before the call, and what it must hold afterwards.
    buffer: [&'a [u8]; 2],
}

/// In small regions, for long.
pub fn talk(calls: &mut Calls, random: &mut Random, pool: &Pool) {
    let lengths = [0; 2].map(|_| any_place(random, SMALL_REGION).length() as i64);
    let mut talk = Talk::begin(calls, random, pool, lengths);
    // Out of eight calls of a unit; more than half fills its ring.
    let mut pushes = [4; 2];
    let most = if random.one_in(16) { 4000 } else { 400 };
    for _ in 0..random.between(50, most) {
        let unit = random.below(2) as usize;
        if random.one_in(32) {
            pushes[unit] = random.between(1, 7) as u64;
        }
        if random.below(8) < pushes[unit] {
            let length = content_length(random, talk.space(unit));
            talk.push(calls, unit, pool.slice(random, length));
        } else {
            talk.receive(calls, random, pool, unit);
        }
    }
    talk.end(calls);
}

/// Contents around the longest one, in regions that have space for it or
/// nearly.
pub fn long_contents(calls: &mut Calls, random: &mut Random, pool: &Pool) {
    const LEAST: i64 = LONGEST_CONTENT as i64 + 1;
    let lengths = [0; 2].map(|_| LEAST + random.between(0, 1200));
    let mut talk = Talk::begin(calls, random, pool, lengths);
    for _ in 0..12 {
        let unit = random.below(2) as usize;
        let near = LONGEST_CONTENT - 9 + random.below(13) as usize;
        let fits = talk.space(unit).saturating_sub(4).min(LONGEST_CONTENT);
        let length = random.pick(&[near, fits, fits + 1, LONGEST_CONTENT]);
        talk.push(calls, unit, pool.slice(random, length));
        talk.receive(calls, random, pool, 1 - unit);
    }
    talk.end(calls);
}

/// Accepted regions of these lengths, beside each other or apart.
fn two_places(random: &mut Random, [length, other]: [i64; 2]) -> [Place<Plain>; 2] {
    loop {
        let alignment = random.pick(&ALIGNMENTS);
        let begin = any_begin(random, length);
        let other_begin = match random.below(3) {
            0 => begin + length,
            1 => begin - other,
            _ => any_begin(random, other),
        };
        let one = plain(begin, length, alignment);
        let other = plain(other_begin, other, alignment);
        let (Some(one), Some(other)) = (one, other) else {
            continue;
        };
        if unit::open(&opening(one, other)).is_ok() {
            return [one, other].map(|region| Place::new(region).expect("an accepted region"));
        }
    }
}

impl Talk {
    /// Both units are opened and started, in regions that held any bytes.
    fn begin(calls: &mut Calls, random: &mut Random, pool: &Pool, lengths: [i64; 2]) -> Self {
        let places = two_places(random, lengths);
        let regions = places.map(|place| pool.slice(random, place.length()).to_vec());
        let [second, other] = [Side::Second, Side::Other(calls.opponent)];
        let pairs = [
            ("units second, second", [second, second]),
            ("units other, other", [other, other]),
            ("units other, second", [other, second]),
            ("units second, other", [second, other]),
        ];
        let mut talk = Talk {
            places,
            pairs: pairs.map(|(name, sides)| Pair {
                name,
                sides,
                regions: regions.clone(),
            }),
            write_indexes: [0; 2],
            read_indexes: [0; 2],
            queues: Default::default(),
        };
        let [one, other] = places.map(|place| place.request);
        calls.open(&opening(one, other), Some(0));
        calls.open(&opening(other, one), Some(0));
        for unit in 0..2 {
            talk.send(calls, unit, Action::Start, &STATED);
        }
        talk
    }

    /// The longest packet that fits now.
    fn space(&self, region: usize) -> usize {
        let packets = self.queues[region].iter();
        let unread: usize = packets.map(|content| packet_length(content.len())).sum();
        self.places[region].data_length - 1 - unread
    }

    fn push(&mut self, calls: &mut Calls, unit: usize, content: &[u8]) {
        self.send(calls, unit, Action::Push(content), content);
    }

    /// A start or a push, which puts a content on the ring.
    fn send(&mut self, calls: &mut Calls, unit: usize, action: Action, content: &[u8]) {
        let own_index = self.write_indexes[unit];
        let stated = if content.len() > LONGEST_CONTENT {
            Outcome::refused(11, own_index)
        } else if packet_length(content.len()) > self.space(unit) {
            Outcome::refused(10, own_index)
        } else {
            self.queues[unit].push_back(content.to_vec());
            Outcome::accepted(content.len(), own_index, self.places[unit].data_length)
        };
        self.write_indexes[unit] = stated.own_index;
        let step = Step {
            unit,
            region: unit,
            own_index,
            action,
            stated,
            buffer: [&[]; 2],
        };
        self.make(calls, &step);
    }

    /// Receives with a buffer of a length that may be too short.
    fn receive(&mut self, calls: &mut Calls, random: &mut Random, pool: &Pool, unit: usize) {
        let next = self.queues[1 - unit].front().map_or(8, Vec::len);
        let length = buffer_length(random, next);
        self.receive_into(calls, unit, pool.slice(random, length));
    }

    fn receive_into(&mut self, calls: &mut Calls, unit: usize, before: &[u8]) {
        let region = 1 - unit;
        let own_index = self.read_indexes[region];
        let mut expected = before.to_vec();
        let stated = match self.queues[region].front() {
            None => Outcome::refused(8, own_index),
            Some(content) if content.len() > before.len() => Outcome::refused(26, own_index),
            Some(content) => {
                expected[..content.len()].copy_from_slice(content);
                Outcome::accepted(content.len(), own_index, self.places[region].data_length)
            }
        };
        if stated.refusal == 0 {
            self.queues[region].pop_front();
        }
        self.read_indexes[region] = stated.own_index;
        let step = Step {
            unit,
            region,
            own_index,
            action: Action::Receive,
            stated,
            buffer: [before, &expected],
        };
        self.make(calls, &step);
    }

    /// Both units receive all that is left, and then find nothing.
    fn end(mut self, calls: &mut Calls) {
        for unit in 0..2 {
            for _ in 0..=self.queues[1 - unit].len() {
                let next = self.queues[1 - unit].front().map_or(0, Vec::len);
                self.receive_into(calls, unit, &vec![0x5C; next]);
            }
        }
    }

    /// All pairs make the same call, and must get what is stated. A talk that
    /// has gone wrong says nothing more.
    fn make(&mut self, calls: &mut Calls, step: &Step) {
        if calls.has_differences() {
            return;
        }
        let place = self.places[step.region];
        let call = Call {
            request: place.request,
            own_index: step.own_index,
            answer_length: ANSWER,
            stated: Some(step.stated),
        };
        calls.count(step.action, step.stated.refusal);
        let mut wrong = Vec::new();
        for pair in &mut self.pairs {
            wrong.extend(pair.wrong(&call, step));
        }
        let [second, others @ ..] = &self.pairs;
        for pair in others {
            if pair.regions[step.region] != second.regions[step.region] {
                wrong.push(format!("{}: region with other bytes", pair.name));
            }
        }
        if !wrong.is_empty() {
            let lengths = [place.length(), step.buffer[0].len()];
            calls.differ(|| {
                let call = describe(&call, step.action, lengths);
                format!("{call}\n  {}", wrong.join("\n  "))
            });
        }
    }
}

impl Pair {
    /// Makes the call, and says what is not as stated.
    fn wrong(&mut self, call: &Call<Plain>, step: &Step) -> Option<String> {
        let [before, expected] = step.buffer;
        let mut buffer = before.to_vec();
        let mut answer = [PATTERN; ANSWER];
        let lent = Lent {
            region: &mut self.regions[step.region],
            buffer: &mut buffer,
            answer: &mut answer,
        };
        let number = self.sides[step.unit].call(call, step.action, lent);
        let stated = step.stated;
        let good = number == stated.refusal && answer == stated.values() && buffer == expected;
        (!good).then(|| {
            let outcome = outcome_name(number);
            let buffer = if buffer == expected {
                "as stated"
            } else {
                "with other bytes"
            };
            format!(
                "{}: {outcome}, answer {answer:?}, buffer {buffer}",
                self.name
            )
        })
    }
}
