//! The kinds of a script's records, and the bodies that they have.

use crate::link::fault::{planted, Fault};

#[derive(Clone, Copy, PartialEq, Eq)]
#[repr(u8)]
pub enum Kind {
    Arrival = 0,
    Register = 1,
    Reserve = 2,
    Send = 3,
    Drop = 4,
    Done = 5,
    Push = 6,
    Start = 16,
    Pull = 17,
    Room = 18,
    View = 19,
    RoomQuestion = 20,
    ViewQuestion = 21,
    WriteReceive = 32,
    WriteTransmit = 33,
    Lend = 34,
}

/// How many bytes the body of a record has.
#[derive(Clone, Copy)]
pub enum BodyLength {
    Any,
    Exactly(usize),
    AtLeast(usize),
}

impl Kind {
    pub const ALL: [Kind; 16] = [
        Kind::Arrival,
        Kind::Register,
        Kind::Reserve,
        Kind::Send,
        Kind::Drop,
        Kind::Done,
        Kind::Push,
        Kind::Start,
        Kind::Pull,
        Kind::Room,
        Kind::View,
        Kind::RoomQuestion,
        Kind::ViewQuestion,
        Kind::WriteReceive,
        Kind::WriteTransmit,
        Kind::Lend,
    ];

    pub fn of(number: u8) -> Option<Self> {
        Self::ALL.into_iter().find(|&kind| kind as u8 == number)
    }

    pub fn body_length(self) -> BodyLength {
        match self {
            Kind::Arrival | Kind::Register | Kind::Push => BodyLength::Any,
            Kind::Start => BodyLength::Exactly(0),
            Kind::Pull => BodyLength::Exactly(2),
            Kind::Reserve | Kind::Drop | Kind::Done | Kind::Room | Kind::View => {
                BodyLength::Exactly(4)
            }
            Kind::RoomQuestion | Kind::ViewQuestion | Kind::Lend => BodyLength::Exactly(8),
            Kind::Send => BodyLength::Exactly(12),
            Kind::WriteReceive | Kind::WriteTransmit => BodyLength::AtLeast(4),
        }
    }
}

impl BodyLength {
    pub fn is(self, length: usize) -> bool {
        match self {
            BodyLength::Any => true,
            BodyLength::Exactly(wanted) => {
                length == wanted || length > wanted && planted(Fault::LongBodyAccepted)
            }
            BodyLength::AtLeast(wanted) => length >= wanted,
        }
    }
}
