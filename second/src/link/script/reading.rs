//! Reads a script: its opening, its records, and where it stops.

use super::kind::{BodyLength, Kind};
use super::record::Record;
use crate::link::end::{Opening, Slice};
use crate::link::fault::{unless, Fault};

/// Bytes of an opening.
pub const OPENING_BYTES: usize = 22;

/// Bytes of a record before its body: the kind, then the body's length.
pub const RECORD_HEADER: usize = 3;

/// Why a run stops before its script ends.
#[derive(Clone, Copy)]
pub enum Stop {
    /// So many bytes are left where the opening should be.
    Opening {
        left: usize,
    },
    /// So many where the kind and the length of a body should be.
    RecordHeader {
        left: usize,
    },
    /// So many where the whole record should be.
    Record {
        length: usize,
        left: usize,
    },
    UnknownKind(u8),
    Body {
        length: usize,
        wanted: BodyLength,
    },
    /// So many in the output, where a row should go.
    Output {
        left: usize,
    },
}

impl Opening {
    /// The first bytes of a script, and the records behind them.
    pub fn decode(script: &[u8]) -> Result<(Self, Records<'_>), Stop> {
        let Some((opening, rest)) = script.split_first_chunk::<OPENING_BYTES>() else {
            return Err(Stop::Opening { left: script.len() });
        };
        let mut numbers = Numbers(opening);
        let opening = Opening {
            transmit_begin: numbers.four(),
            transmit_end: numbers.four(),
            receive_begin: numbers.four(),
            receive_end: numbers.four(),
            transmit_blocks: numbers.two().into(),
            receive_blocks: numbers.two().into(),
            alignment: numbers.two().into(),
        };
        let at = OPENING_BYTES;
        Ok((opening, Records { rest, at }))
    }

    /// Block counts and alignment are cut to the two bytes that each has.
    pub fn encode(&self) -> Vec<u8> {
        let addresses = [
            self.transmit_begin,
            self.transmit_end,
            self.receive_begin,
            self.receive_end,
        ];
        let counts = [self.transmit_blocks, self.receive_blocks, self.alignment];
        let addresses = addresses.into_iter().flat_map(u32::to_le_bytes);
        let counts = counts.map(|count| count as u16);
        addresses
            .chain(counts.into_iter().flat_map(u16::to_le_bytes))
            .collect()
    }
}

/// The records of a script, up to the first that is not whole or not good.
#[derive(Clone)]
pub struct Records<'a> {
    rest: &'a [u8],
    /// Where the next one begins in the script.
    pub at: usize,
}

impl Records<'_> {
    /// Why there is no next record; none at the script's end, or where there is
    /// one.
    pub fn stop(&self) -> Option<Stop> {
        if self.rest.is_empty() {
            return None;
        }
        read(self.rest).err()
    }
}

impl<'a> Iterator for Records<'a> {
    type Item = Record<'a>;

    fn next(&mut self) -> Option<Record<'a>> {
        let (record, rest) = read(self.rest).ok()?;
        self.at += self.rest.len() - rest.len();
        self.rest = rest;
        Some(record)
    }
}

/// The first record of these bytes, and the bytes behind it.
fn read(script: &[u8]) -> Result<(Record<'_>, &[u8]), Stop> {
    let left = script.len();
    let Some((&[kind, low, high], rest)) = script.split_first_chunk::<RECORD_HEADER>() else {
        return Err(Stop::RecordHeader { left });
    };
    let kind = Kind::of(kind).ok_or(Stop::UnknownKind(kind))?;
    let length = usize::from(u16::from_le_bytes([low, high]));
    let length = unless(Fault::CutRecordAccepted, length, length.min(rest.len()));
    let Some((body, rest)) = rest.split_at_checked(length) else {
        let length = RECORD_HEADER + length;
        return Err(Stop::Record { length, left });
    };
    let wanted = kind.body_length();
    if !wanted.is(length) {
        return Err(Stop::Body { length, wanted });
    }
    Ok((record(kind, body), rest))
}

/// The record of that kind, with a body of a good length.
fn record(kind: Kind, body: &[u8]) -> Record<'_> {
    let mut numbers = Numbers(body);
    let mut four = || numbers.four();
    match kind {
        Kind::Arrival => Record::Arrival(body),
        Kind::Register => Record::Register(body),
        Kind::Push => Record::Push(body),
        Kind::Reserve => Record::Reserve { k: four() },
        Kind::Send => Record::Send {
            start: four(),
            address: four(),
            k: four(),
        },
        Kind::Drop => Record::Drop { start: four() },
        Kind::Done => Record::Done { start: four() },
        Kind::Start => Record::Start,
        Kind::Pull => Record::Pull {
            buffer_length: numbers.two(),
        },
        Kind::Room => Record::Room { start: four() },
        Kind::View => Record::View { start: four() },
        Kind::RoomQuestion => Record::RoomQuestion {
            start: four(),
            length: four(),
        },
        Kind::ViewQuestion => Record::ViewQuestion {
            start: four(),
            length: four(),
        },
        Kind::WriteReceive => numbers.write(Slice::Receive),
        Kind::WriteTransmit => numbers.write(Slice::Transmit),
        Kind::Lend => Record::Lend {
            transmit: four(),
            receive: four(),
        },
    }
}

/// Numbers of an opening or of a body, as many as there must be.
struct Numbers<'a>(&'a [u8]);

impl<'a> Numbers<'a> {
    fn chunk<const N: usize>(&mut self) -> [u8; N] {
        let (chunk, rest) = self
            .0
            .split_first_chunk()
            .expect("a length that was checked");
        self.0 = rest;
        *chunk
    }

    fn two(&mut self) -> u16 {
        u16::from_le_bytes(self.chunk())
    }

    fn four(&mut self) -> u32 {
        u32::from_le_bytes(self.chunk())
    }

    fn write(&mut self, slice: Slice) -> Record<'a> {
        let offset = self.four();
        Record::Write {
            slice,
            offset,
            bytes: self.0,
        }
    }
}
