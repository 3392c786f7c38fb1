//! A newer partner: what the rules ignore is added or changed, and nothing else
//! may come of it.

use std::ops::Range;

use super::case::Case;
use super::session::Session;
use crate::compare::random::Random;
use crate::link::end::{
    Open, Outcome, Region, Slice, BOUND, DATA, HEADER, LONGEST_NAME, RELEASE_BOUND,
};
use crate::link::ring::past;
use crate::link::script::{Record, Row};

/// A row of the base script that the newer one has, too.
pub struct Kept {
    /// Where it stands among the newer script's rows.
    row: usize,
    /// False for a partner's write to the receive bytes: what it replaces may
    /// have been changed.
    receive_compared: bool,
}

/// A script with the changes that a newer partner makes, and the rows of the
/// old one in it.
pub struct Newer {
    pub case: Case,
    kept: Vec<Kept>,
}

/// Makes one out of a script whose slices have space for its regions.
pub fn newer(random: &mut Random, base: &Case) -> Newer {
    let opening = base.opening().expect("a script with an opening");
    let mut change = Change {
        random,
        base: Session::with_slices(opening, base.lengths),
        newer: Session::with_slices(opening, base.lengths),
        kept: vec![Kept {
            row: 0,
            receive_compared: true,
        }],
    };
    for record in base.records() {
        change.unknown_arrivals();
        if record.is_call() {
            change.call(record);
        } else {
            change.base.play(record);
            change.keep(record);
        }
    }
    let Change {
        random,
        newer,
        kept,
        ..
    } = change;
    Newer {
        case: newer.finish(random),
        kept,
    }
}

/// Both scripts as they grow.
struct Change<'r> {
    random: &'r mut Random,
    base: Session,
    newer: Session,
    kept: Vec<Kept>,
}

impl Change<'_> {
    /// Adds a record to the newer script whose row is compared.
    fn keep(&mut self, record: Record) {
        let receive_written = matches!(
            record,
            Record::Write {
                slice: Slice::Receive,
                ..
            }
        );
        self.kept.push(Kept {
            row: self.newer.rows(),
            receive_compared: !receive_written,
        });
        self.newer.play(record);
    }

    fn unknown_arrivals(&mut self) {
        while self.random.one_in(4) {
            let mut control = self.random_bytes(8);
            control.insert(0, self.random.between(4, 255) as u8);
            self.newer.play(Record::Arrival(&control));
        }
    }

    fn call(&mut self, record: Record) {
        let used = self.play_base(record);
        if self.random.one_in(2) {
            self.change_unused(&used);
        }
        match record {
            Record::Arrival(control @ [DATA..=RELEASE_BOUND, _, _, ..]) => {
                let grown = self.grow(control);
                let more = self.random_bytes(5);
                let longer = [control, &more].concat();
                self.keep(Record::Arrival(&longer));
                if let Some(header) = grown {
                    self.restore(header);
                }
            }
            _ => self.keep(record),
        }
    }

    /// Plays a call on the base script and makes the newer script's memory ready
    /// for it: the receive bytes that it reads or writes over, which it gives,
    /// are alike in both.
    fn play_base(&mut self, record: Record) -> Vec<Range<usize>> {
        let mut read_index = 0;
        if let Some(open) = self.base.state() {
            read_index = open.read_index;
            // The one place that a call writes to; afterwards it is too late.
            self.restore(open.receive.read_index_place());
        }
        let outcome = self.base.play(record);
        let Some(open) = self.base.state() else {
            return Vec::new();
        };
        let mut used = read_bytes(open, &self.base, read_index, &record, &outcome);
        for range in &used {
            self.restore(range.clone());
        }
        let written = outcome.answer.written.into_iter();
        let written = written.filter(|written| written.slice == Slice::Receive);
        used.extend(written.map(|written| written.range));
        used
    }

    /// Gives receive bytes the value they have in the base script.
    fn restore(&mut self, range: Range<usize>) {
        let bytes = &self.base.receive[range.clone()];
        if self.newer.receive[range.clone()] != *bytes {
            self.newer.write(Slice::Receive, range.start, bytes);
        }
    }

    /// Changes receive bytes, but for those that are used.
    fn change_unused(&mut self, used: &[Range<usize>]) {
        let length = self.newer.receive.len();
        let most = if self.random.one_in(8) { 256 } else { 24 };
        let first = match used.last() {
            // Near the used ones are padding and bytes behind a message.
            Some(near) if self.random.one_in(2) => near.start.saturating_sub(most / 2),
            _ => self.random.below(length as u64) as usize,
        };
        let last = length.min(first + most);
        let mut unused = first..first;
        for at in first..=last {
            if at < last && !used.iter().any(|range| range.contains(&at)) {
                unused.end = at + 1;
                continue;
            }
            if !unused.is_empty() {
                let bytes = self.random.bytes(unused.len());
                self.newer.write(Slice::Receive, unused.start, &bytes);
            }
            unused = at + 1..at + 1;
        }
    }

    /// Puts bytes after a binding message that fits and is zero-ended, inside
    /// the blocks that it has. Gives the place of the header to be restored.
    fn grow(&mut self, control: &[u8]) -> Option<Range<usize>> {
        let &[BOUND, _, block, ..] = control else {
            return None;
        };
        let region = &self.base.state()?.receive;
        let receive = self.base.lent_receive();
        let start = u32::from(block);
        if receive.len() != region.length() || start >= region.block_count() {
            return None;
        }
        let k = region.read_k(receive, start);
        let count = u32::try_from(region.count_for(k)).ok()?;
        if count > region.block_count() - start || !name_bytes(region, receive, start, k).1 {
            return None;
        }
        let most = region.bytes_of(count) as u32 - HEADER as u32;
        let grown = self.random.between(k.into(), most.into()) as u32;
        let header = region.header(start);
        let behind = region.content(start, k as usize).end;
        let more = self.random.bytes((grown - k).min(64) as usize);
        self.newer
            .write(Slice::Receive, header.start, &grown.to_le_bytes());
        self.newer.write(Slice::Receive, behind, &more);
        Some(header)
    }

    /// Up to so many.
    fn random_bytes(&mut self, most: i64) -> Vec<u8> {
        let length = self.random.between(0, most);
        self.random.bytes(length as usize)
    }
}

/// The receive bytes that the rules read for a call, by how far it got.
fn read_bytes(
    open: &Open,
    base: &Session,
    read_index: u32,
    record: &Record,
    outcome: &Outcome,
) -> Vec<Range<usize>> {
    let region = &open.receive;
    match (record, outcome.number) {
        (Record::Pull { .. }, 0 | 7 | 8 | 9) => {
            let mut read = vec![region.write_index_place()];
            if matches!(outcome.number, 0 | 9) {
                read.extend(region.data_places(read_index, 2));
            }
            if outcome.number == 0 {
                let data_length = region.layout.data_length as usize;
                let content = past(read_index as usize, 4, data_length);
                let written = outcome.answer.written.iter();
                let copied = written.filter(|written| written.slice == Slice::Buffer);
                let copied = copied.map(|written| written.range.len()).sum();
                read.extend(region.data_places(content, copied));
            }
            read
        }
        (Record::Arrival([DATA, _, block, ..]), 0 | 17 | 18)
        | (Record::Arrival([BOUND, _, block, ..]), 17 | 18) => vec![region.header((*block).into())],
        (Record::Arrival([BOUND, _, block, ..]), 0 | 20 | 21 | 22) => {
            let start = u32::from(*block);
            let k = region.read_k(&base.receive, start);
            vec![
                region.header(start),
                name_bytes(region, &base.receive, start, k).0,
            ]
        }
        _ => Vec::new(),
    }
}

/// The bytes of a binding message that are read for its name, and whether a
/// zero ends them.
fn name_bytes(region: &Region, receive: &[u8], start: u32, k: u32) -> (Range<usize>, bool) {
    let window = region.content(start, (k as usize).min(LONGEST_NAME + 1));
    match receive[window.clone()].iter().position(|&byte| byte == 0) {
        Some(zero) => (window.start..window.start + zero + 1, true),
        None => (window, false),
    }
}

impl Newer {
    /// The first row of the base script whose like in the newer one says
    /// something else, if there is one.
    ///
    /// Sums are compared by how far a row changes them, as the bytes around
    /// differ. A call changes a sum by the bytes it writes less those that stood
    /// there, each times its position, modulo 65,521. Those that stood there
    /// are alike in both scripts, so bytes that are written alike change the
    /// sum alike, and others do so only by a rare chance. The row before has
    /// the sums from just before the call, be it a record of both scripts or
    /// one that was put in, so what was put in is in no difference.
    pub fn first_difference(&self, base: &[Row], newer: &[Row]) -> Option<usize> {
        (0..self.kept.len()).find(|&at| {
            let kept = &self.kept[at];
            let changes = [(base, at), (newer, kept.row)].map(|(rows, at)| {
                let before = at.checked_sub(1).and_then(|before| rows.get(before));
                rows.get(at).map(|row| row.change(before))
            });
            match changes {
                [Some(mut base), Some(newer)] => {
                    if !kept.receive_compared {
                        base.0[Row::RECEIVE_SUM] = newer.0[Row::RECEIVE_SUM];
                    }
                    base != newer
                }
                [base, newer] => base != newer,
            }
        })
    }

    /// Where a row of the base script stands in the newer one.
    pub fn row_of(&self, base_row: usize) -> usize {
        self.kept[base_row].row
    }
}
