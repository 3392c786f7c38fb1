//! Sheets as trees, before they are written as bytes. What must come of a pick
//! can be told by them.

use super::calls::{Stated, NOTHING};
use crate::compare::random::Random;
use crate::link::sheet::{
    DEEPEST, FIRST_GROUP, HEADER, LARGEST_SHEET, LONGEST_PATH, LONGEST_VALUE,
};

pub struct Field {
    pub tag: u8,
    pub value: Value,
}

pub enum Value {
    Bytes(Vec<u8>),
    List(List),
}

pub type List = Vec<Field>;

impl Value {
    fn size(&self) -> usize {
        match self {
            Value::Bytes(bytes) => bytes.len(),
            Value::List(list) => size(list),
        }
    }
}

pub fn size(list: &[Field]) -> usize {
    let sizes = list.iter().map(|field| HEADER + field.value.size());
    sizes.sum()
}

/// How many groups lie in each other, at most.
fn depth(list: &[Field]) -> usize {
    let depths = list.iter().map(|field| match &field.value {
        Value::Bytes(_) => 0,
        Value::List(inner) => 1 + depth(inner),
    });
    depths.max().unwrap_or(0)
}

/// The begin and size of the value at a path.
fn find(list: &[Field], path: &[u8]) -> Option<(usize, usize)> {
    let (&first, rest) = path.split_first()?;
    let at = list.iter().position(|field| field.tag == first)?;
    let begin = size(&list[..at]) + HEADER;
    match &list[at].value {
        value if rest.is_empty() => Some((begin, value.size())),
        Value::List(inner) => find(inner, rest).map(|(within, size)| (begin + within, size)),
        Value::Bytes(_) => None,
    }
}

/// What must come of a pick; tags in one list differ.
pub fn stated(hand: &[Field], incoming: &[Field], path: &[u8]) -> Stated {
    let malformed = |list| size(list) > LARGEST_SHEET || depth(list) > DEEPEST;
    let good_length = (1..=LONGEST_PATH).contains(&path.len());
    if !good_length || path[..path.len() - 1].iter().any(|&tag| tag < FIRST_GROUP) {
        return (27, NOTHING);
    }
    if malformed(hand) {
        return (28, NOTHING);
    }
    if malformed(incoming) {
        return (29, NOTHING);
    }
    let found = |which, list| find(list, path).map(|(begin, size)| (which, begin, size));
    match found(0, hand).or_else(|| found(1, incoming)) {
        Some((which, begin, size)) => (0, [which, begin as u32, size as u32]),
        None => (30, NOTHING),
    }
}

/// What lists are made of.
pub struct Mix<'a> {
    pub tags: &'a [u8],
    pub longest_value: usize,
}

impl Mix<'_> {
    /// A list of that many bytes, or fewer where that cannot be met.
    pub fn list(&self, random: &mut Random, depth: usize, bytes: usize) -> List {
        let may_have = |tag: u8| tag < FIRST_GROUP || depth < DEEPEST;
        let mut tags = self.tags.to_vec();
        tags.retain(|&tag| may_have(tag));
        let mut left = bytes;
        let mut list = List::new();
        while left >= HEADER {
            let size = self.field_size(random, left, tags.len());
            let value_size = size - HEADER;
            let tag = if value_size == 1 {
                // No group has one byte.
                let value = tags.iter().position(|&tag| tag < FIRST_GROUP);
                value.map(|at| tags.swap_remove(at))
            } else {
                random.take(&mut tags)
            };
            let Some(tag) = tag else {
                break;
            };
            let value = if tag < FIRST_GROUP {
                Value::Bytes(random.bytes(value_size))
            } else {
                Value::List(self.list(random, depth + 1, value_size))
            };
            list.push(Field { tag, value });
            left -= size;
        }
        list
    }

    /// Bytes of the next field, where so many are left for so many tags.
    fn field_size(&self, random: &mut Random, left: usize, tags: usize) -> usize {
        let most = HEADER + self.longest_value;
        let high = most.min(left);
        let for_others = most * tags.saturating_sub(1);
        let low = left.saturating_sub(for_others).clamp(HEADER, high);
        let size = match random.below(8) {
            0 | 1 => low,
            2 => high,
            3 | 4 => (low + random.below(6) as usize).min(high),
            _ => random.between(low as i64, high as i64) as usize,
        };
        // One byte is too few for another field.
        if left - size != 1 {
            size
        } else if size < most {
            size + 1
        } else {
            size - 1
        }
    }
}

/// The same list with some fields left out, and other values in some.
pub fn thinned(random: &mut Random, list: &[Field]) -> List {
    let mut thin = List::new();
    for Field { tag, value } in list {
        if random.one_in(4) {
            continue;
        }
        let value = match value {
            Value::Bytes(bytes) if random.one_in(2) => Value::Bytes(bytes.clone()),
            Value::Bytes(bytes) => {
                let shorter = random.below(bytes.len() as u64 + 1) as usize;
                Value::Bytes(random.bytes(shorter))
            }
            Value::List(inner) => Value::List(thinned(random, inner)),
        };
        thin.push(Field { tag: *tag, value });
    }
    let first = random.below(thin.len() as u64 + 1) as usize;
    thin.rotate_left(first);
    thin
}

/// So many groups in each other, with little beside them.
pub fn chain(random: &mut Random, groups: usize) -> List {
    let mut list = few_values(random);
    for _ in 0..groups {
        let tag = random.pick(&[0x80, 0x80, 0x80, 0x81, 0xFF]);
        let group = Field {
            tag,
            value: Value::List(list),
        };
        list = few_values(random);
        let at = random.below(list.len() as u64 + 1) as usize;
        list.insert(at, group);
    }
    list
}

/// Fields with small values, or none.
fn few_values(random: &mut Random) -> List {
    let mut tags = vec![0x00, 0x01, 0x7F];
    let mut list = List::new();
    while random.one_in(3) {
        let Some(tag) = random.take(&mut tags) else {
            break;
        };
        let size = random.below(4) as usize;
        let value = Value::Bytes(random.bytes(size));
        list.push(Field { tag, value });
    }
    list
}

/// A sheet as bytes.
#[derive(Default)]
pub struct Written {
    pub bytes: Vec<u8>,
    /// Where its fields begin.
    pub fields: Vec<usize>,
}

impl Written {
    pub fn new(list: &[Field]) -> Self {
        let mut written = Written::default();
        written.write(list);
        written
    }

    fn write(&mut self, list: &[Field]) {
        for Field { tag, value } in list {
            let size = value.size();
            assert!(size <= LONGEST_VALUE, "a value of {size} bytes");
            self.fields.push(self.bytes.len());
            self.bytes.extend([*tag, size as u8]);
            match value {
                Value::Bytes(bytes) => self.bytes.extend(bytes),
                Value::List(inner) => self.write(inner),
            }
        }
    }
}
