//! The search for free blocks in a row, look by look, and in how many turns it
//! ends.

use crate::link::fault::{planted, unless, Fault};
use crate::link::layout::MOST_BLOCKS;

/// The bytes of both tables, the transmit table first. Each begins with its bits.
pub const TABLES: usize = 3136;

/// What a search came to.
#[derive(Clone, PartialEq, Eq, Debug)]
pub struct Searched {
    /// Where the run starts, if there is one.
    pub start: Option<u32>,
    /// The blocks that were looked at, one in each turn.
    pub looked: Vec<u32>,
}

impl Searched {
    /// Turns in the low 16 bits; above them the start, counted from 1, or 0.
    pub fn number(&self) -> u32 {
        let start = self.start.map_or(0, |start| start + 1);
        let turns = self.looked.len() as u32;
        start << 16 | unless(Fault::TurnsInByte, turns, turns & 0xFF)
    }
}

/// Whether the transmit table has this block held: a bit for each, the lowest
/// first. Behind the last block there is none to be held.
pub fn is_held(tables: &[u8], block: u32) -> bool {
    let table = unless(Fault::ReceiveSearched, 0, TABLES / 2);
    let bit = unless(Fault::BitsReversed, block % 8, 7 - block % 8);
    block < MOST_BLOCKS && tables[table + block as usize / 8] >> bit & 1 == 1
}

/// Searches `all` blocks for `count` free ones. None if that cannot be asked.
pub fn search(tables: &[u8], all: u32, count: u32) -> Option<Searched> {
    let all = unless(Fault::BlocksIn16Bits, all, all & 0xFFFF);
    let count = unless(Fault::WantedIn16Bits, count, count & 0xFFFF);
    let some = count > 0 || planted(Fault::NoneSearched);
    if tables.len() != TABLES || all > MOST_BLOCKS || !some {
        return None;
    }
    let mut looked = Vec::new();
    let mut first = 0;
    let start = loop {
        let stop = match try_run(tables, first, all, count, &mut looked) {
            Tried::Long => break Some(first),
            Tried::Ended => break None,
            Tried::Held(block) => block,
        };
        first = go_on(first, stop);
    };
    Some(Searched { start, looked })
}

/// What becomes of a run that is looked at block by block.
enum Tried {
    Long,
    Held(u32),
    Ended,
}

fn try_run(tables: &[u8], first: u32, all: u32, count: u32, looked: &mut Vec<u32>) -> Tried {
    let wanted = unless(Fault::RunOneShort, count, count.saturating_sub(1).max(1));
    let end = unless(Fault::LastUnseen, all, all.saturating_sub(1));
    let end = unless(Fault::OneTurnMore, end, all + 1);
    for block in first..end {
        if planted(Fault::StopsEarly) && all - first < count {
            return Tried::Ended;
        }
        looked.push(block);
        if planted(Fault::LooksTwice) {
            looked.push(block);
        }
        if is_held(tables, block) {
            return Tried::Held(block);
        }
        if block - first + 1 == wanted {
            if planted(Fault::LooksBehindRun) && block + 1 < all {
                looked.push(block + 1);
            }
            return Tried::Long;
        }
    }
    Tried::Ended
}

/// The first block of the next run, behind a held one.
fn go_on(first: u32, held: u32) -> u32 {
    if planted(Fault::SearchGoesBack) {
        return first + 1;
    }
    if planted(Fault::HeldAgain) && held > first {
        return held;
    }
    unless(Fault::NextPassedOver, held + 1, held + 2)
}
