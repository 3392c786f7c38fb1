//! Makes a script shorter that shows a difference.

use super::case::Case;
use crate::link::script::{Opening, Record, OPENING_BYTES};

/// The shortest script found that still fails: parts of it are left out, then
/// single records, then bytes at the end of bodies.
pub fn shortest(case: &Case, fails: &dyn Fn(&Case) -> bool) -> Case {
    let mut pieces = Pieces::of(case);
    pieces.leave_out(fails);
    pieces.shorten_bodies(fails);
    // Shorter bodies can make further records needless.
    pieces.leave_out(fails);
    pieces.case()
}

/// A script cut where its records begin.
struct Pieces<'a> {
    case: &'a Case,
    opening: &'a [u8],
    /// The records, and what is not a good one behind them.
    pieces: Vec<Vec<u8>>,
}

impl<'a> Pieces<'a> {
    fn of(case: &'a Case) -> Self {
        let (opening, mut rest) = case
            .script
            .split_at_checked(OPENING_BYTES)
            .unwrap_or((&case.script, &[]));
        let mut pieces = Vec::new();
        for record in case.records() {
            let (piece, behind) = rest.split_at(record.length());
            pieces.push(piece.to_vec());
            rest = behind;
        }
        if !rest.is_empty() {
            pieces.push(rest.to_vec());
        }
        Pieces {
            case,
            opening,
            pieces,
        }
    }

    fn case(&self) -> Case {
        Case {
            script: [self.opening, &self.pieces.concat()].concat(),
            lengths: self.case.lengths,
        }
    }

    /// Leaves out as many records as it can, half of them at once at first.
    fn leave_out(&mut self, fails: &dyn Fn(&Case) -> bool) {
        let mut chunk = self.pieces.len().div_ceil(2);
        while chunk > 0 {
            let mut at = 0;
            let mut shorter = false;
            while at < self.pieces.len() {
                let end = self.pieces.len().min(at + chunk);
                let before = self.pieces.clone();
                self.pieces.drain(at..end);
                if fails(&self.case()) {
                    shorter = true;
                } else {
                    self.pieces = before;
                    at = end;
                }
            }
            // With single records, until none can be spared.
            if !(chunk == 1 && shorter) {
                chunk /= 2;
            }
        }
    }

    fn shorten_bodies(&mut self, fails: &dyn Fn(&Case) -> bool) {
        for at in 0..self.pieces.len() {
            let mut cut = self.pieces[at].len();
            while cut > 0 {
                let before = self.pieces[at].clone();
                match with_shorter_body(&before, cut) {
                    Some(shorter) => self.pieces[at] = shorter,
                    None => {
                        cut /= 2;
                        continue;
                    }
                }
                if !fails(&self.case()) {
                    self.pieces[at] = before;
                    cut /= 2;
                }
            }
        }
    }
}

/// The record without that many last bytes, if it is one that has them.
fn with_shorter_body(piece: &[u8], cut: usize) -> Option<Vec<u8>> {
    // An opening in front makes it a script to be decoded.
    let script = [&[0; OPENING_BYTES], piece].concat();
    let (_, mut records) = Opening::decode(&script).ok()?;
    let shorter = |bytes: &'_ [u8]| bytes.len().checked_sub(cut);
    let record = match records.next()? {
        Record::Arrival(control) => Record::Arrival(&control[..shorter(control)?]),
        Record::Register(name) => Record::Register(&name[..shorter(name)?]),
        Record::Push(content) => Record::Push(&content[..shorter(content)?]),
        Record::Write {
            slice,
            offset,
            bytes,
        } => Record::Write {
            slice,
            offset,
            bytes: &bytes[..shorter(bytes)?],
        },
        _ => return None,
    };
    let mut piece = Vec::new();
    record.encode(&mut piece);
    Some(piece)
}
