//! The kinds of random calls.

use std::ops::Range;

use super::calls::{Asked, Calls};
use super::inputs::{any_path, damage, Pair};
use super::tree::{stated, Written};
use crate::compare::random::{Pool, Random};
use crate::compare::ring::inputs::answer_length;
use crate::link::sheet::{ANSWER, HEADER};

/// Pairs of one batch.
const BATCH: usize = 8;

/// Calls with each pair of sheets.
const PATHS: usize = 4;

pub fn well_formed(calls: &mut Calls, random: &mut Random, _: &Pool) {
    for _ in 0..BATCH {
        let pair = Pair::related(random);
        ask_stated(calls, random, &pair);
    }
}

pub fn deep(calls: &mut Calls, random: &mut Random, _: &Pool) {
    for _ in 0..BATCH {
        let pair = Pair::deep(random);
        if random.one_in(4) {
            ask_damaged(calls, random, &pair);
        } else {
            ask_stated(calls, random, &pair);
        }
    }
}

pub fn large(calls: &mut Calls, random: &mut Random, _: &Pool) {
    match random.below(16) {
        0 => {
            let pair = Pair::related(random);
            ask_grown(calls, random, &pair);
        }
        1..=3 => {
            let pair = Pair::large(random);
            ask_damaged(calls, random, &pair);
        }
        _ => {
            let pair = Pair::large(random);
            ask_stated(calls, random, &pair);
        }
    }
}

pub fn damaged(calls: &mut Calls, random: &mut Random, _: &Pool) {
    for _ in 0..BATCH {
        let pair = Pair::related(random);
        ask_damaged(calls, random, &pair);
    }
}

/// The sheets as they are; what must come of it is told by the trees.
fn ask_stated(calls: &mut Calls, random: &mut Random, pair: &Pair) {
    let [hand, incoming] = pair.written().map(|sheet| sheet.bytes);
    for _ in 0..PATHS {
        let path = pair.path(random);
        let stated = stated(&pair.hand, &pair.incoming, &path);
        let asked = Asked::apart(&hand, &incoming, &path);
        calls.make(asked, answer_length(random, ANSWER), Some(stated));
    }
}

/// One sheet damaged or both, at each call in another way.
fn ask_damaged(calls: &mut Calls, random: &mut Random, pair: &Pair) {
    for _ in 0..PATHS {
        let [mut hand, mut incoming] = pair.written();
        let which = random.below(5);
        if which < 3 {
            damage(random, &mut hand);
        }
        if which > 1 {
            damage(random, &mut incoming);
        }
        let path = pair.path(random);
        let asked = Asked::apart(&hand.bytes, &incoming.bytes, &path);
        calls.make(asked, answer_length(random, ANSWER), None);
    }
}

/// One sheet with as many bytes behind it as two bytes cannot count.
fn ask_grown(calls: &mut Calls, random: &mut Random, pair: &Pair) {
    let [mut hand, mut incoming] = pair.written().map(|sheet| sheet.bytes);
    let grown = if random.one_in(2) {
        &mut hand
    } else {
        &mut incoming
    };
    grown.resize(grown.len() + (1 << 16), 0);
    for _ in 0..PATHS {
        let path = pair.path(random);
        let asked = Asked::apart(&hand, &incoming, &path);
        calls.make(asked, answer_length(random, ANSWER), None);
    }
}

/// Sheets of a few bytes that are often tags and lengths.
pub fn short(calls: &mut Calls, random: &mut Random, _: &Pool) {
    const BYTES: [u8; 12] = [0, 0, 1, 1, 2, 2, 3, 4, 0x7F, 0x80, 0x81, 0xFF];
    for _ in 0..BATCH * PATHS {
        let mut some = |most: u64| -> Vec<u8> {
            let length = random.below(most + 1);
            (0..length).map(|_| random.pick(&BYTES)).collect()
        };
        let asked = Asked::apart(&some(8), &some(8), &some(3));
        calls.make(asked, answer_length(random, ANSWER), None);
    }
}

/// Bytes that nobody vouches for.
pub fn any_bytes(calls: &mut Calls, random: &mut Random, pool: &Pool) {
    for _ in 0..BATCH * PATHS {
        let most = random.pick(&[4, 16, 300]);
        let [hand, incoming] = [0; 2].map(|_| {
            let length = random.below(most) as usize;
            pool.slice(random, length)
        });
        let path = any_path(random);
        let asked = Asked::apart(hand, incoming, &path);
        calls.make(asked, answer_length(random, ANSWER), None);
    }
}

/// Sheets and path that are parts of one memory, and may share bytes.
pub fn shared(calls: &mut Calls, random: &mut Random, _: &Pool) {
    for _ in 0..BATCH {
        let pair = Pair::related(random);
        let [hand, incoming] = pair.written();
        for _ in 0..PATHS {
            let path = pair.path(random);
            let memory = [&hand.bytes[..], &incoming.bytes, &path].concat();
            let second = hand.bytes.len();
            let third = second + incoming.bytes.len();
            let parts = [0..second, second..third, third..memory.len()].map(|own| {
                if random.one_in(2) {
                    own
                } else {
                    other_part(random, memory.len(), &hand)
                }
            });
            let asked = Asked::inside(&memory, parts);
            calls.make(asked, answer_length(random, ANSWER), None);
        }
    }
}

/// The first sheet of a memory, a value in it, any bytes, or no bytes anywhere.
fn other_part(random: &mut Random, memory: usize, first: &Written) -> Range<usize> {
    match random.below(6) {
        0 | 1 => 0..first.bytes.len(),
        2 | 3 if !first.fields.is_empty() => {
            let begin = random.pick(&first.fields) + HEADER;
            begin..begin + usize::from(first.bytes[begin - 1])
        }
        4 => {
            let begin = random.below(memory as u64 + 1) as usize;
            begin..memory.min(begin + random.below(8) as usize)
        }
        _ => {
            let address = random.pick(&[0, 1, memory, usize::MAX]);
            address..address
        }
    }
}
