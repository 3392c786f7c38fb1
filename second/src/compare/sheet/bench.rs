//! Calls with every number stated beforehand.

use super::calls::{Asked, Calls, Stated, NOTHING};
use crate::compare::random::{Pool, Random};
use crate::link::sheet::{ANSWER, HEADER, LARGEST_SHEET, LONGEST_VALUE};

/// Hand-set sheet, incoming sheet, path, and what must come of it.
type Bench = (
    &'static [u8],
    &'static [u8],
    &'static [u8],
    Result<[u32; ANSWER], u32>,
);

/// The innermost list has depth 4, and nothing in it.
const EMPTY_AT_4: &[u8] = &[0x80, 6, 0x80, 4, 0x80, 2, 0x80, 0];

/// It has a value of one byte.
const VALUE_AT_4: &[u8] = &[0x80, 9, 0x80, 7, 0x80, 5, 0x80, 3, 0x01, 1, 0x2A];

/// It has an empty group, and one with a value.
const EMPTY_AT_5: &[u8] = &[0x80, 8, 0x80, 6, 0x80, 4, 0x80, 2, 0x80, 0];
const VALUE_AT_5: &[u8] = &[0x80, 10, 0x80, 8, 0x80, 6, 0x80, 4, 0x80, 2, 0x01, 0];

#[rustfmt::skip]
const BENCH: [Bench; 68] = [
    // Sheets and values of no bytes, and of some.
    (&[], &[], &[0x01], Err(30)),
    (&[0x01, 0], &[], &[0x01], Ok([0, 2, 0])),
    (&[], &[0x01, 0], &[0x01], Ok([1, 2, 0])),
    (&[0x01, 2, 7, 8], &[], &[0x01], Ok([0, 2, 2])),
    (&[0x02, 1, 7, 0x01, 1, 8], &[], &[0x01], Ok([0, 5, 1])),
    // The first and the last tag are tags like others.
    (&[0x00, 1, 7], &[], &[0x00], Ok([0, 2, 1])),
    (&[0x01, 0, 0x00, 0, 0x02, 0], &[], &[0x02], Ok([0, 6, 0])),
    (&[0xFF, 0], &[], &[0xFF], Ok([0, 2, 0])),
    (&[0xFF, 3, 0x7F, 1, 9], &[], &[0xFF, 0x7F], Ok([0, 4, 1])),
    (&[0x7F, 1, 9], &[], &[0x7F], Ok([0, 2, 1])),
    // In one sheet, in the other, in both.
    (&[0x01, 1, 5], &[0x01, 2, 6, 7], &[0x01], Ok([0, 2, 1])),
    (&[0x01, 0], &[0x01, 2, 6, 7], &[0x01], Ok([0, 2, 0])),
    (&[0x02, 0], &[0x03, 0, 0x01, 2, 6, 7], &[0x01], Ok([1, 4, 2])),
    (&[0x02, 0], &[0x03, 0], &[0x01], Err(30)),
    // Groups are whole, and are not merged.
    (&[0x80, 2, 0x01, 0], &[0x80, 4, 0x02, 2, 8, 9], &[0x80], Ok([0, 2, 2])),
    (&[0x80, 2, 0x01, 0], &[0x80, 4, 0x02, 2, 8, 9], &[0x80, 0x01], Ok([0, 4, 0])),
    (&[0x80, 2, 0x01, 0], &[0x80, 4, 0x02, 2, 8, 9], &[0x80, 0x02], Ok([1, 4, 2])),
    (&[0x80, 2, 0x01, 0], &[0x80, 4, 0x02, 2, 8, 9], &[0x80, 0x03], Err(30)),
    (&[0x80, 0], &[0x80, 4, 0x02, 2, 8, 9], &[0x80], Ok([0, 2, 0])),
    (&[], &[0x80, 4, 0x02, 2, 8, 9], &[0x80], Ok([1, 2, 4])),
    (&[0x80, 3, 0x01, 1, 5], &[], &[0x01], Err(30)),
    (&[0x80, 2, 0x81, 0], &[], &[0x81], Err(30)),
    // Paths: their length, and the tags that they pass through.
    (&[0x01, 0], &[], &[], Err(27)),
    (&[0x01, 2, 0x01, 0], &[], &[0x01, 0x01], Err(27)),
    (&[0x80, 0], &[], &[0x7F, 0x80], Err(27)),
    (&[0x80, 0], &[], &[0x80, 0x00, 0x01], Err(27)),
    (&[0x80, 0], &[], &[0x80, 0x80], Err(30)),
    (&[0x80, 0], &[], &[0x80, 0x80, 0x80], Err(30)),
    (VALUE_AT_4, &[], &[0x80, 0x80, 0x80, 0x80], Ok([0, 8, 3])),
    (VALUE_AT_4, &[], &[0x80, 0x80, 0x80, 0x80, 0x01], Ok([0, 10, 1])),
    (VALUE_AT_4, &[], &[0x80, 0x80, 0x80, 0x80, 0x80], Err(30)),
    (VALUE_AT_4, &[], &[0x80, 0x80, 0x80, 0x7F, 0x80], Err(27)),
    (VALUE_AT_4, &[], &[0x80, 0x80, 0x80, 0x80, 0x80, 0x01], Err(27)),
    // Lists four deep, and five.
    (EMPTY_AT_4, &[], &[0x80, 0x80, 0x80, 0x80], Ok([0, 8, 0])),
    (&[], EMPTY_AT_4, &[0x80, 0x80, 0x80], Ok([1, 6, 2])),
    (EMPTY_AT_5, &[], &[0x80], Err(28)),
    (VALUE_AT_5, &[], &[0x80], Err(28)),
    (&[], EMPTY_AT_5, &[0x80], Err(29)),
    (&[], VALUE_AT_5, &[0x80], Err(29)),
    // Equal tags in one list: neighbours, first and last, of groups.
    (&[0x01, 0, 0x01, 0], &[], &[0x01], Err(28)),
    (&[0x01, 0, 0x02, 0, 0x01, 0], &[], &[0x02], Err(28)),
    (&[0x80, 0, 0x80, 0], &[], &[0x01], Err(28)),
    (&[0x80, 0, 0x01, 0, 0x80, 2, 0x01, 0], &[], &[0x01], Err(28)),
    (&[0x80, 4, 0x01, 0, 0x01, 0], &[], &[0x80], Err(28)),
    (&[], &[0x80, 5, 0x01, 1, 7, 0x01, 0], &[0x80], Err(29)),
    // Equal tags in different lists, and tags that differ by 0x80.
    (&[0x01, 0, 0x80, 2, 0x01, 0], &[], &[0x01], Ok([0, 2, 0])),
    (&[0x01, 0, 0x80, 2, 0x01, 0], &[], &[0x80, 0x01], Ok([0, 6, 0])),
    (&[0x80, 2, 0x80, 0], &[], &[0x80, 0x80], Ok([0, 4, 0])),
    (&[0x80, 2, 0x01, 0, 0x81, 2, 0x01, 0], &[], &[0x81, 0x01], Ok([0, 8, 0])),
    (&[0x01, 0, 0x81, 0], &[], &[0x81], Ok([0, 4, 0])),
    // What looks like a field inside a value is none.
    (&[0x01, 4, 0x02, 0, 0x02, 9], &[], &[0x01], Ok([0, 2, 4])),
    (&[0x01, 2, 0x02, 0], &[], &[0x02], Err(30)),
    // One byte left over, in the sheet and in a group.
    (&[0x01], &[], &[0x01], Err(28)),
    (&[], &[0x00], &[0x01], Err(29)),
    (&[0x01, 0, 0x00], &[], &[0x01], Err(28)),
    (&[0x80, 1, 0x01], &[], &[0x80], Err(28)),
    (&[0x80, 3, 0x01, 0, 0x00, 0x02, 0], &[], &[0x02], Err(28)),
    // Lengths past the end of the sheet, and of a group alone.
    (&[0x01, 1], &[], &[0x01], Err(28)),
    (&[0x01, 255, 7, 8], &[], &[0x01], Err(28)),
    (&[], &[0x01, 2, 7], &[0x01], Err(29)),
    (&[0x80, 2, 0x01, 2, 0x02, 0], &[], &[0x80], Err(28)),
    (&[0x80, 2, 0x01, 1, 0x02, 0x02, 0], &[], &[0x80], Err(28)),
    // Which check comes first.
    (&[0x01], &[0x01], &[], Err(27)),
    (&[0x01], &[0x01], &[0x01, 0x01], Err(27)),
    (&[0x01], &[0x01], &[0x01], Err(28)),
    (&[0x01], &[0x01, 0], &[0x01], Err(28)),
    (&[0x01, 0], &[0x01], &[0x01], Err(29)),
    (&[0x01, 0], &[0x01], &[0x02], Err(29)),
];

/// Each with answers of 0 to 5 elements.
pub fn bench(calls: &mut Calls, _: &mut Random, _: &Pool) {
    for (hand, incoming, path, outcome) in BENCH {
        let stated = match outcome {
            Ok(answer) => (0, answer),
            Err(number) => (number, NOTHING),
        };
        for answer_length in 0..=ANSWER + 2 {
            let asked = Asked::apart(hand, incoming, path);
            calls.make(asked, answer_length, Some(stated));
        }
    }
}

/// Sheets of every length up to some fields and around the limit, in either
/// place. All fields but the last ones are as long as can be.
pub fn every_length(calls: &mut Calls, _: &mut Random, _: &Pool) {
    const FIELD: usize = HEADER + LONGEST_VALUE;
    for length in (2..=3 * FIELD).chain(LARGEST_SHEET - 300..=LARGEST_SHEET + 300) {
        let mut sheet = Vec::new();
        let mut fields = Vec::new();
        while sheet.len() < length {
            let left = length - sheet.len();
            // One byte is too few for another field.
            let size = FIELD.min(if left == FIELD + 1 { left - 2 } else { left }) - HEADER;
            let tag = fields.len() as u8;
            sheet.extend([tag, size as u8]);
            fields.push((tag, [sheet.len(), size].map(|number| number as u32)));
            sheet.resize(sheet.len() + size, 0x80);
        }
        let good = length <= LARGEST_SHEET;
        for (tag, [begin, size]) in fields {
            let found = |which| good.then_some((0, [which, begin, size]));
            let (hand, incoming) = (found(0), found(1));
            ask(calls, &sheet, &[], tag, hand.unwrap_or((28, NOTHING)));
            ask(calls, &[], &sheet, tag, incoming.unwrap_or((29, NOTHING)));
        }
    }
}

/// A path of one tag, and a whole answer.
fn ask(calls: &mut Calls, hand: &[u8], incoming: &[u8], tag: u8, stated: Stated) {
    let asked = Asked::apart(hand, incoming, &[tag]);
    calls.make(asked, ANSWER, Some(stated));
}
