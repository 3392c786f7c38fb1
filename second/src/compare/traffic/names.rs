//! Names of endpoints.

use crate::compare::random::Random;
use crate::link::end::LONGEST_NAME;

/// Names that differ; some are the first bytes of others.
pub const NAMES: u64 = 24;

/// One of the names, by its number.
pub fn numbered(number: u64) -> Vec<u8> {
    let letter = b'a' + (number % 4) as u8;
    // Every length up to 4, then the two longest.
    let length = match number / 4 {
        short @ 0..=3 => short as usize + 1,
        4 => LONGEST_NAME - 1,
        _ => LONGEST_NAME,
    };
    vec![letter; length]
}

/// One of the names.
pub fn good(random: &mut Random) -> Vec<u8> {
    numbered(random.below(NAMES))
}

/// Bytes of any length and kind.
pub fn any(random: &mut Random) -> Vec<u8> {
    let length = match random.below(8) {
        0 => 0,
        1 => 1,
        2 => LONGEST_NAME,
        3 => LONGEST_NAME + 1,
        4 => LONGEST_NAME + 2,
        5 if random.one_in(8) => random.between(34, 2000) as usize,
        _ => random.between(1, LONGEST_NAME as i64) as usize,
    };
    let mut name: Vec<u8> = match random.below(3) {
        0 => vec![random.between(1, 255) as u8; length],
        1 => (0..length).map(|_| random.between(1, 255) as u8).collect(),
        _ => random.bytes(length),
    };
    if length > 0 && random.one_in(4) {
        name[random.below(length as u64) as usize] = 0;
    }
    name
}
