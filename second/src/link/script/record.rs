//! One record of a script.

use super::kind::Kind;
use crate::link::end::Slice;

/// One record: a call, or a change to what calls are lent.
#[derive(Clone, Copy, PartialEq, Eq)]
pub enum Record<'a> {
    Arrival(&'a [u8]),
    Register(&'a [u8]),
    Reserve {
        k: u32,
    },
    Send {
        start: u32,
        address: u32,
        k: u32,
    },
    Drop {
        start: u32,
    },
    Done {
        start: u32,
    },
    Push(&'a [u8]),
    Start,
    Pull {
        buffer_length: u16,
    },
    Room {
        start: u32,
    },
    View {
        start: u32,
    },
    RoomQuestion {
        start: u32,
        length: u32,
    },
    ViewQuestion {
        start: u32,
        length: u32,
    },
    /// Writes to the transmit or the receive bytes, whatever is lent of them.
    Write {
        slice: Slice,
        offset: u32,
        bytes: &'a [u8],
    },
    /// Later calls are lent that many first bytes.
    Lend {
        transmit: u32,
        receive: u32,
    },
}

impl Record<'_> {
    /// Appends the record to a script. A body has at most 65,535 bytes.
    pub fn encode(&self, script: &mut Vec<u8>) {
        let (kind, numbers, bytes): (Kind, &[u32], &[u8]) = match *self {
            Record::Arrival(control) => (Kind::Arrival, &[], control),
            Record::Register(name) => (Kind::Register, &[], name),
            Record::Reserve { k } => (Kind::Reserve, &[k], &[]),
            Record::Send { start, address, k } => (Kind::Send, &[start, address, k], &[]),
            Record::Drop { start } => (Kind::Drop, &[start], &[]),
            Record::Done { start } => (Kind::Done, &[start], &[]),
            Record::Push(content) => (Kind::Push, &[], content),
            Record::Start => (Kind::Start, &[], &[]),
            Record::Pull { buffer_length } => (Kind::Pull, &[], &buffer_length.to_le_bytes()),
            Record::Room { start } => (Kind::Room, &[start], &[]),
            Record::View { start } => (Kind::View, &[start], &[]),
            Record::RoomQuestion { start, length } => (Kind::RoomQuestion, &[start, length], &[]),
            Record::ViewQuestion { start, length } => (Kind::ViewQuestion, &[start, length], &[]),
            Record::Write {
                slice,
                offset,
                bytes,
            } => {
                let kind = if slice == Slice::Receive {
                    Kind::WriteReceive
                } else {
                    Kind::WriteTransmit
                };
                (kind, &[offset], bytes)
            }
            Record::Lend { transmit, receive } => (Kind::Lend, &[transmit, receive], &[]),
        };
        let length = 4 * numbers.len() + bytes.len();
        let length = u16::try_from(length).expect("a body of at most 65,535 bytes");
        script.push(kind as u8);
        script.extend(length.to_le_bytes());
        script.extend(numbers.iter().flat_map(|number| number.to_le_bytes()));
        script.extend(bytes);
    }

    /// Bytes that it takes in a script.
    pub fn length(&self) -> usize {
        let mut script = Vec::new();
        self.encode(&mut script);
        script.len()
    }

    /// True if it is a call on the end.
    pub fn is_call(&self) -> bool {
        !matches!(self, Record::Write { .. } | Record::Lend { .. })
    }
}
