//! Sheets: lists of fields with tags, and a value picked by its path out of two
//! of them.

mod index;
mod path;

pub use index::{Flaw, Index, DEEPEST, HEADER, LARGEST_SHEET, LONGEST_VALUE};
pub use path::{FIRST_GROUP, LONGEST_PATH};

use crate::link::fault::{in_order, planted, unless, Fault};
use crate::link::refusal::{refuse, Refusal};
use index::Field;

/// Numbers in a whole answer: which sheet, begin and size of the value.
pub const ANSWER: usize = 3;

/// A sheet by its number in an answer.
#[derive(Clone, Copy, PartialEq, Eq)]
pub enum Which {
    HandSet = 0,
    Incoming = 1,
}

/// A part of a sheet.
#[derive(Clone, Copy)]
pub struct Part {
    pub which: Which,
    /// From the sheet's first byte.
    pub begin: usize,
    pub size: usize,
}

impl Part {
    /// What goes with a refusal.
    const EMPTY: Part = Part {
        which: Which::HandSet,
        begin: 0,
        size: 0,
    };

    /// The value of a field.
    fn of(which: Which, field: &Field) -> Self {
        let Field { begin, size, .. } = *field;
        let begin = unless(Fault::BeginAtTag, begin, begin.wrapping_sub(HEADER));
        Part {
            which,
            begin: unless(Fault::BeginInByte, begin, begin & 0xFF),
            size: unless(Fault::SizeWithHeader, size, size + HEADER),
        }
    }

    /// The whole answer.
    pub fn values(&self) -> [u32; ANSWER] {
        [self.which as u32, self.begin as u32, self.size as u32]
    }
}

/// The value at a path: of the hand-set sheet if that has it, else of the
/// incoming one.
fn pick(hand: &[u8], incoming: &[u8], path: &[u8]) -> Result<Part, Refusal> {
    let tags = path.len();
    let path = &path[..unless(Fault::PathInByte, tags, tags & 0xFF)];
    let whole = Part {
        size: hand.len(),
        ..Part::EMPTY
    };
    let [hand, incoming] = [hand, incoming].map(Index::read);
    check(&hand, &incoming, path)?;
    // Only with a fault planted can a sheet be malformed or the path empty here.
    let [hand, incoming] = [hand, incoming].map(Result::unwrap_or_default);
    if path.is_empty() {
        return Ok(whole);
    }
    let by_hand = hand.find(path);
    let hidden = planted(Fault::GroupHides) && hand.find(&path[..1]).is_some();
    let by_incoming = incoming.find(path).filter(|_| !hidden);
    chosen(
        by_hand.map(|field| Part::of(Which::HandSet, field)),
        by_incoming.map(|field| Part::of(Which::Incoming, field)),
    )
    .ok_or(Refusal::NotFound)
}

/// Judges path and both sheets, before anything is looked up.
fn check(
    hand: &Result<Index, Flaw>,
    incoming: &Result<Index, Flaw>,
    path: &[u8],
) -> Result<(), Refusal> {
    let has_path = |index: &Index| index.find(path).is_some();
    let unneeded = planted(Fault::IncomingWhenNeeded) && hand.as_ref().is_ok_and(has_path);
    let bad_hand = hand.is_err() && !planted(Fault::HandPassedOver);
    let bad_incoming = incoming.is_err() && !unneeded;
    let sheets = in_order(
        Fault::IncomingJudgedFirst,
        refuse(bad_hand, Refusal::BadHandSheet),
        refuse(bad_incoming, Refusal::BadIncomingSheet),
    );
    in_order(Fault::PathAfterSheets, path::check(path), sheets)
}

/// The hand-set sheet's part before the incoming one's, unless a fault is
/// planted.
fn chosen(by_hand: Option<Part>, by_incoming: Option<Part>) -> Option<Part> {
    let gives_way = by_hand.is_some_and(|part| part.size == 0) && planted(Fault::EmptyGivesWay);
    if gives_way || planted(Fault::IncomingPreferred) {
        by_incoming.or(by_hand)
    } else {
        by_hand.or(by_incoming)
    }
}

/// What a pick answers a program in C; refusal 0 is a value found.
pub struct Answer {
    pub refusal: u32,
    pub part: Part,
}

/// Picks. The part of a refusal is empty.
pub fn answer(hand: &[u8], incoming: &[u8], path: &[u8]) -> Answer {
    match pick(hand, incoming, path) {
        Ok(part) => Answer { refusal: 0, part },
        Err(refusal) => {
            let kept = refusal == Refusal::BadIncomingSheet && planted(Fault::RefusedKeepsPart);
            let kept = kept.then(|| pick(hand, &[], path).ok()).flatten();
            Answer {
                refusal: refusal as u32,
                part: kept.unwrap_or(Part::EMPTY),
            }
        }
    }
}
