//! One pair of sheets, changed and cut in every way, and every short path.

use super::calls::{Asked, Calls};
use crate::compare::random::{Pool, Random};
use crate::link::sheet::ANSWER;

#[rustfmt::skip]
const HAND: &[u8] = &[
    0x01, 2, 0xA1, 0xA2,
    0x80, 12,
        0x02, 1, 0xB1,
        0x81, 5,
            0x02, 0,
            0x03, 1, 0xC1,
        0x04, 0,
    0xFF, 2,
        0x00, 0,
    0x05, 0,
];

#[rustfmt::skip]
const INCOMING: &[u8] = &[
    0x80, 14,
        0x81, 7,
            0x80, 3,
                0x01, 1, 0xD1,
            0x03, 0,
        0x06, 3, 0xE1, 0xE2, 0xE3,
    0x01, 0,
    0x07, 1, 0xF1,
    0x82, 0,
];

const PATHS: [&[u8]; 10] = [
    &[0x01],
    &[0x07],
    &[0x80],
    &[0x82],
    &[0xFF, 0x00],
    &[0x80, 0x06],
    &[0x80, 0x81],
    &[0x80, 0x81, 0x03],
    &[0x80, 0x81, 0x80, 0x01],
    &[0x80, 0x05],
];

fn ask(calls: &mut Calls, hand: &[u8], incoming: &[u8], path: &[u8]) {
    calls.make(Asked::apart(hand, incoming, path), ANSWER, None);
}

/// In either sheet.
pub fn every_change(calls: &mut Calls, _: &mut Random, _: &Pool) {
    for sheet in [HAND, INCOMING] {
        let mut changed = sheet.to_vec();
        for at in 0..sheet.len() {
            for byte in 0..=u8::MAX {
                changed[at] = byte;
                for path in PATHS {
                    ask(calls, &changed, INCOMING, path);
                    ask(calls, HAND, &changed, path);
                }
            }
            changed[at] = sheet[at];
        }
    }
}

/// Each first and each last part of either sheet.
pub fn every_cut(calls: &mut Calls, _: &mut Random, _: &Pool) {
    for sheet in [HAND, INCOMING] {
        for at in 0..=sheet.len() {
            for part in [&sheet[..at], &sheet[at..]] {
                for path in PATHS {
                    ask(calls, part, INCOMING, path);
                    ask(calls, HAND, part, path);
                }
            }
        }
    }
}

/// Of one tag and of two, and of three below one group.
pub fn every_path(calls: &mut Calls, _: &mut Random, _: &Pool) {
    for first in 0..=u8::MAX {
        ask(calls, HAND, INCOMING, &[first]);
        for second in 0..=u8::MAX {
            ask(calls, HAND, INCOMING, &[first, second]);
            ask(calls, HAND, INCOMING, &[0x80, first, second]);
        }
    }
}
