//! Scripts that are broken somewhere, or run with slices too short for them.

use super::case::Case;
use super::lone;
use crate::compare::random::Random;
use crate::link::script::{Kind, OPENING_BYTES, ROW_BYTES};

/// Good scripts of a hostile partner or of nonsense, and what breaks them.
pub fn malformed(random: &mut Random) -> Case {
    let mut case = if random.one_in(2) {
        lone::hostile(random)
    } else {
        lone::nonsense(random)
    };
    // More records would only be what other groups compare.
    let records = random.below(40) as usize;
    let length: usize = case
        .records()
        .take(records)
        .map(|record| record.length())
        .sum();
    case.script.truncate(OPENING_BYTES + length);
    // Space for the row of a record that is put behind.
    case.lengths.out += ROW_BYTES;
    for _ in 0..random.between(1, 2) {
        break_it(random, &mut case);
    }
    case
}

fn break_it(random: &mut Random, case: &mut Case) {
    let lengths = &mut case.lengths;
    match random.below(10) {
        0 => case
            .script
            .truncate(random.below(OPENING_BYTES as u64 + 8) as usize),
        1 => {
            let length = random.below(case.script.len() as u64 + 1) as usize;
            case.script.truncate(length);
        }
        2 | 3 => break_record(random, case),
        4 => {
            let kind = random.pick(&Kind::ALL);
            case.script.push(kind as u8);
            let length = random.below(16) as u16;
            case.script.extend(length.to_le_bytes());
            // A byte may be missing, or one too many.
            let body = usize::from(length).saturating_add_signed(random.between(-1, 1) as isize);
            case.script.extend(random.bytes(body));
        }
        5 => {
            let length = random.below(40) as usize;
            case.script = random.bytes(length);
        }
        6 => lengths.out = random.below(lengths.out as u64 + 1) as usize,
        7 => {
            lengths.out =
                random.pick(&[0, 1, ROW_BYTES - 1, ROW_BYTES, ROW_BYTES + 1, 2 * ROW_BYTES])
        }
        8 => lengths.transmit = random.below(lengths.transmit as u64 + 1) as usize,
        _ if random.one_in(3) => lengths.buffer = random.below(lengths.buffer as u64 + 1) as usize,
        _ => lengths.receive = random.below(lengths.receive as u64 + 1) as usize,
    }
}

/// Changes the kind or the body's length of some record.
fn break_record(random: &mut Random, case: &mut Case) {
    let mut starts = vec![];
    let mut at = OPENING_BYTES;
    for record in case.records() {
        starts.push(at);
        at += record.length();
    }
    if starts.is_empty() {
        return;
    }
    let at = random.pick(&starts);
    match random.below(3) {
        0 => case.script[at] = random.any() as u8,
        1 => case.script[at] = random.pick(&Kind::ALL) as u8,
        _ => {
            let change = random.pick(&[1, 2, 4, 255, 254, 252]);
            case.script[at + 1] = case.script[at + 1].wrapping_add(change);
        }
    }
}
