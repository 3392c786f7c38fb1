//! The searches that are compared, and counted.

use crate::compare::plan;
use crate::compare::proved;
use crate::compare::report::Group;
use crate::compare::tally::check_least;
use crate::compare::twin::Twin;
use crate::compare::Opponent;
use crate::link::fault;
use crate::link::layout::MOST_BLOCKS;
use crate::link::search::{is_held, search, Searched, TABLES};

/// Where a search must find a run, and in how many turns.
pub type Stated = (Option<u32>, u32);

/// A table to be searched, once for each side.
pub struct Table(Twin<u8>);

impl Table {
    /// With these blocks held. What else is in the bytes is no matter.
    pub fn holding(blocks: impl IntoIterator<Item = u32>) -> Self {
        let mut bytes = [0; TABLES];
        for block in blocks {
            bytes[block as usize / 8] |= 1 << (block % 8);
        }
        Table::of(&bytes)
    }

    pub fn of(bytes: &[u8]) -> Self {
        Table(Twin::new(bytes))
    }

    /// The lowest start, going through the blocks from the last to the first.
    fn lowest(&self, all: u32, count: u32) -> Option<u32> {
        let mut free = 0;
        let starts = (0..all).rev().filter(|&block| {
            free = if is_held(self.0.second(), block) {
                0
            } else {
                free + 1
            };
            free >= count
        });
        starts.last()
    }

    /// The blocks that are held, of so many.
    fn held(&self, all: u32) -> String {
        let tables = self.0.second();
        let blocks = 0..all.min(MOST_BLOCKS).min(8 * tables.len() as u32);
        let marks = blocks.map(|block| ['.', 'H'][usize::from(is_held(tables, block))]);
        marks.collect()
    }
}

/// How often a search came to what.
#[derive(Default)]
pub struct Tallies {
    /// No held block was met.
    at_once: u64,
    /// Held blocks were met, and others are left.
    later: u64,
    /// Its last block was the last of all.
    at_last: u64,
    nowhere: u64,
    not_asked: u64,
    /// With 1, 255 and 256 blocks.
    counts: [u64; 3],
}

const COUNTS: [u32; 3] = [1, 255, 256];

pub type Calls = plan::Calls<Tallies>;

impl Calls {
    /// A search of the first `all` blocks for `count` free ones. What must come of
    /// it may be stated.
    pub fn make(&mut self, table: &mut Table, all: u32, count: u32, stated: Option<Stated>) {
        let [second_bytes, other_bytes] = table.0.lend();
        let second = search(second_bytes, all, count);
        let number = |searched: Option<Searched>| searched.map_or(0, |searched| searched.number());
        let other = match self.opponent {
            Opponent::Proved => proved::search(other_bytes, all, count),
            Opponent::Planted(fault) => {
                fault::with(fault, || number(search(other_bytes, all, count)))
            }
        };

        self.made += 1;
        self.tallies.count(&second, all, count);
        let as_stated = stated.is_none_or(|(start, turns)| {
            let found = second.as_ref();
            found.is_some_and(|found| found.start == start && found.looked.len() as u32 == turns)
        });
        let in_rule = second.as_ref().is_none_or(|searched| {
            let turns = searched.looked.len() as u32;
            searched.start == table.lowest(all, count)
                && searched.looked.iter().copied().eq(0..turns)
                && turns <= all
        });
        let second = number(second);
        if second == other && table.0.same() && as_stated && in_rule {
            return;
        }
        let name = self.opponent.name();
        self.differ(|| {
            let stated = stated.map(|stated| format!("\n  stated: {stated:?}"));
            format!(
                "{count} of {all} blocks, {}{}\n  second: {}\n  {name}: {}\n  tables: {}",
                table.held(all),
                stated.unwrap_or_default(),
                in_words(second),
                in_words(other),
                table.0.difference()
            )
        });
    }
}

impl Tallies {
    fn count(&mut self, searched: &Option<Searched>, all: u32, count: u32) {
        let Some(Searched { start, looked }) = searched else {
            self.not_asked += 1;
            return;
        };
        let turns = looked.len() as u32;
        let which = match start {
            None => &mut self.nowhere,
            Some(_) if turns == count => &mut self.at_once,
            Some(_) if turns == all => &mut self.at_last,
            Some(_) => &mut self.later,
        };
        *which += 1;
        if let Some(at) = COUNTS.iter().position(|&known| known == all) {
            self.counts[at] += 1;
        }
    }
}

impl plan::Tallies for Tallies {
    fn check(&self, group: &mut Group) {
        let mut check = |outcome: &str, occurrences: u64| {
            println!("search outcomes: {outcome:<30} {occurrences:>10}");
            check_least(group, &format!("search: {outcome}"), occurrences);
        };
        check("found at once", self.at_once);
        check("found behind held blocks", self.later);
        check("found with the last block", self.at_last);
        check("nowhere", self.nowhere);
        check("not to be asked", self.not_asked);
        for (count, occurrences) in COUNTS.iter().zip(self.counts) {
            check(&format!("of {count} blocks"), occurrences);
        }
    }
}

fn in_words(number: u32) -> String {
    let turns = number & 0xFFFF;
    match number >> 16 {
        0 => format!("nowhere, {turns} turns"),
        place => format!("start {}, {turns} turns", place - 1),
    }
}
