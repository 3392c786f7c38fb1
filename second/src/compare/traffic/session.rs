//! A script in the making: every record is run as it is added, so that the
//! next can follow from what came of it.

use super::case::{Case, Lengths};
use crate::compare::random::Random;
use crate::link::end::{End, Open, Opening, Outcome, Region, Slice};
use crate::link::script::{Memory, Player, Record, ROW_BYTES};

/// Slices for openings whose regions nobody can lend.
const CLOSED_SLICE: usize = 64;

pub struct Session {
    opening: Opening,
    script: Vec<u8>,
    player: Player,
    pub transmit: Vec<u8>,
    pub receive: Vec<u8>,
    pub buffer: Vec<u8>,
    rows: usize,
}

impl Session {
    /// The slices have `spare` bytes more than the regions.
    pub fn open(opening: Opening, buffer: usize, spare: usize) -> Self {
        let (end, _) = End::open(&opening);
        let length = |region: fn(&Open) -> &Region| match end.state() {
            Some(open) => region(open).length() + spare,
            None => CLOSED_SLICE,
        };
        let lengths = Lengths {
            transmit: length(|open| &open.transmit),
            receive: length(|open| &open.receive),
            buffer,
            out: 0,
        };
        Session::with_slices(opening, lengths)
    }

    /// All but `out` of these lengths, which is as long as it has to be.
    pub fn with_slices(opening: Opening, lengths: Lengths) -> Self {
        let (player, _) = Player::open(&opening);
        Session {
            opening,
            script: opening.encode(),
            player,
            transmit: vec![0; lengths.transmit],
            receive: vec![0; lengths.receive],
            buffer: vec![0; lengths.buffer],
            rows: 1,
        }
    }

    pub fn play(&mut self, record: Record) -> Outcome {
        record.encode(&mut self.script);
        self.rows += 1;
        let mut memory = Memory {
            transmit: &mut self.transmit,
            receive: &mut self.receive,
            buffer: &mut self.buffer,
        };
        self.player.play(&record, &mut memory)
    }

    /// Writes bytes from outside of the end.
    pub fn write(&mut self, slice: Slice, offset: usize, bytes: &[u8]) {
        let offset = offset as u32;
        self.play(Record::Write {
            slice,
            offset,
            bytes,
        });
    }

    /// What the end keeps, if it is open.
    pub fn state(&self) -> Option<&Open> {
        self.player.end.state()
    }

    /// The receive bytes that a call is lent now.
    pub fn lent_receive(&self) -> &[u8] {
        let length = self.player.receive_lent as usize;
        &self.receive[..length.min(self.receive.len())]
    }

    pub fn opening(&self) -> Opening {
        self.opening
    }

    /// Records so far, the opening among them.
    pub fn rows(&self) -> usize {
        self.rows
    }

    /// The script with slices that have space for all it does.
    pub fn finish(self, random: &mut Random) -> Case {
        Case {
            script: self.script,
            lengths: Lengths {
                transmit: self.transmit.len(),
                receive: self.receive.len(),
                buffer: self.buffer.len(),
                out: self.rows * ROW_BYTES + random.below(2 * ROW_BYTES as u64) as usize,
            },
        }
    }
}
