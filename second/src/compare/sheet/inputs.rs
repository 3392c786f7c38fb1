//! Inputs of the sheet comparison: pairs of sheets, paths, and damage.

use super::tree::{chain, thinned, Field, List, Mix, Value, Written};
use crate::compare::random::Random;
use crate::link::sheet::{HEADER, LARGEST_SHEET, LONGEST_PATH, LONGEST_VALUE};

/// Few tags, so that lists and sheets have many in common.
const TAGS: [u8; 12] = [
    0x00, 0x01, 0x02, 0x20, 0x7E, 0x7F, 0x80, 0x81, 0x82, 0xA5, 0xFE, 0xFF,
];

/// A tag that a sheet may well have, or any.
fn any_tag(random: &mut Random) -> u8 {
    if random.one_in(4) {
        random.any() as u8
    } else {
        random.pick(&TAGS)
    }
}

/// Every tag there is.
fn all_tags() -> Vec<u8> {
    (0..=u8::MAX).collect()
}

/// The hand-set and the incoming sheet.
pub struct Pair {
    pub hand: List,
    pub incoming: List,
}

impl Pair {
    /// Both made of one sheet, so that each has some of what the other has.
    pub fn related(random: &mut Random) -> Self {
        let all = all_tags();
        let mix = Mix {
            tags: if random.one_in(8) { &all } else { &TAGS },
            longest_value: LONGEST_VALUE,
        };
        let bytes = match random.below(8) {
            0..=4 => random.below(24),
            5 | 6 => random.below(80),
            _ => random.below(600),
        };
        let both = mix.list(random, 0, bytes as usize);
        Pair {
            hand: thinned(random, &both),
            incoming: thinned(random, &both),
        }
    }

    /// Groups in groups, around the deepest that may be.
    pub fn deep(random: &mut Random) -> Self {
        let [hand, incoming] = [0; 2].map(|_| {
            let groups = random.pick(&[0, 1, 2, 3, 3, 4, 4, 4, 4, 4, 5, 6]);
            chain(random, groups)
        });
        Pair { hand, incoming }
    }

    /// One sheet or both around the most bytes.
    pub fn large(random: &mut Random) -> Self {
        let large = large(random);
        let small = Pair::related(random);
        match random.below(3) {
            0 => Pair {
                incoming: thinned(random, &large),
                hand: large,
            },
            1 => Pair {
                hand: large,
                ..small
            },
            _ => Pair {
                incoming: large,
                ..small
            },
        }
    }

    /// Both as bytes.
    pub fn written(&self) -> [Written; 2] {
        [&self.hand, &self.incoming].map(|list| Written::new(list))
    }

    /// A path that one of them has, or nearly.
    pub fn path(&self, random: &mut Random) -> Vec<u8> {
        let lists: [&[Field]; 2] = [&self.hand, &self.incoming];
        let list = random.pick(&lists);
        let mut path = walk(random, list);
        let tag = any_tag(random);
        match random.below(32) {
            0..=2 => path.push(tag),
            3..=5 => {
                path.pop();
            }
            6..=9 => {
                let at = random.below(path.len() as u64) as usize;
                let before = path[at];
                path[at] = random.pick(&[tag, before ^ 0x80, before.wrapping_add(1)]);
            }
            10 => path = any_path(random),
            11 if random.one_in(4) => path.resize(path.len() + 256, tag),
            _ => {}
        }
        path
    }
}

/// A list around the most bytes of a sheet, or any below.
fn large(random: &mut Random) -> List {
    let near = LARGEST_SHEET as i64 + random.between(-6, 6);
    let bytes = match random.below(8) {
        0..=2 => LARGEST_SHEET,
        3 => LARGEST_SHEET + 1,
        4..=6 => near as usize,
        _ => random.below(LARGEST_SHEET as u64) as usize,
    };
    let mix = Mix {
        tags: &all_tags(),
        longest_value: random.pick(&[LONGEST_VALUE, LONGEST_VALUE, 30, 15, 14]),
    };
    mix.list(random, 0, bytes)
}

/// The tags down to some field; where there is none, any tag.
fn walk(random: &mut Random, mut list: &[Field]) -> Vec<u8> {
    if list.is_empty() {
        return vec![any_tag(random)];
    }
    let mut path = Vec::new();
    while !list.is_empty() {
        let field = &list[random.below(list.len() as u64) as usize];
        path.push(field.tag);
        match &field.value {
            Value::List(inner) if !random.one_in(4) => list = inner,
            _ => break,
        }
    }
    path
}

/// Any tags, up to one more than a path may have.
pub fn any_path(random: &mut Random) -> Vec<u8> {
    let length = random.below(LONGEST_PATH as u64 + 2);
    (0..length).map(|_| any_tag(random)).collect()
}

/// Damages a sheet in one way or some.
pub fn damage(random: &mut Random, sheet: &mut Written) {
    let times = random.pick(&[1, 1, 1, 2, 3]);
    for _ in 0..times {
        if random.one_in(2) {
            damage_field(random, sheet);
        } else {
            damage_bytes(random, &mut sheet.bytes);
        }
    }
}

/// Makes a length wrong by one or by its highest bit, or a tag that of another
/// field or another kind.
fn damage_field(random: &mut Random, Written { bytes, fields }: &mut Written) {
    let at = random.below(fields.len() as u64 + 1) as usize;
    let near = at + random.below(4) as usize;
    let [field, other] = [at, near].map(|at| fields.get(at).copied());
    // Its bytes may have been cut off before.
    let Some(field) = field.filter(|field| field + HEADER <= bytes.len()) else {
        return;
    };
    let [tag, length] = [bytes[field], bytes[field + 1]];
    match random.below(6) {
        0 => bytes[field + 1] = length.wrapping_add(1),
        1 => bytes[field + 1] = length.wrapping_sub(1),
        2 => bytes[field + 1] = length ^ 0x80,
        3 => bytes[field] = tag ^ 0x80,
        _ => {
            if let Some(other) = other.and_then(|other| bytes.get_mut(other)) {
                *other = tag;
            }
        }
    }
}

/// Cuts bytes off, puts one in, takes one out or changes one.
fn damage_bytes(random: &mut Random, bytes: &mut Vec<u8>) {
    let at = random.below(bytes.len() as u64 + 1) as usize;
    let [tag, any] = [any_tag(random), random.any() as u8];
    let byte = random.pick(&[0, 1, tag, any]);
    match random.below(6) {
        0 => bytes.truncate(at),
        1 => bytes.push(byte),
        2 => bytes.insert(at, byte),
        3 if at < bytes.len() => {
            bytes.remove(at);
        }
        _ if at < bytes.len() => bytes[at] = byte,
        _ => {}
    }
}
