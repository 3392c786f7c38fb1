//! Control messages: their three bytes.

use super::LAST_ADDRESS;
use crate::link::fault::{planted, unless, Fault};
use crate::link::refusal::{refuse, Refusal};

/// Bytes of a control message; further ones are not used.
pub const CONTROL: usize = 3;

/// What a control message is about, by its first byte.
#[derive(Clone, Copy, PartialEq, Eq)]
#[repr(u8)]
pub enum ControlKind {
    Data = 0,
    ReleaseData = 1,
    Bound = 2,
    ReleaseBound = 3,
}

/// The first bytes of control messages, for patterns.
pub const DATA: u8 = ControlKind::Data as u8;
pub const BOUND: u8 = ControlKind::Bound as u8;
pub const RELEASE_BOUND: u8 = ControlKind::ReleaseBound as u8;

impl ControlKind {
    pub const ALL: [ControlKind; 4] = [
        ControlKind::Data,
        ControlKind::ReleaseData,
        ControlKind::Bound,
        ControlKind::ReleaseBound,
    ];

    pub fn of(first: u8) -> Option<Self> {
        Self::ALL.into_iter().find(|&kind| kind as u8 == first)
    }

    pub fn name(self) -> &'static str {
        match self {
            ControlKind::Data => "data",
            ControlKind::ReleaseData => "release data",
            ControlKind::Bound => "bound",
            ControlKind::ReleaseBound => "release bound",
        }
    }

    /// True if its block is one of the writer's own region; a release names a
    /// block of the other.
    pub fn announces(self) -> bool {
        matches!(self, ControlKind::Data | ControlKind::Bound)
    }
}

/// The bytes of a control message that are used.
#[derive(Clone, Copy)]
pub struct Control {
    pub kind: ControlKind,
    pub address: u8,
    pub block: u8,
}

impl Control {
    /// Tells the partner of a message. A start is one of at most 256 blocks, so
    /// it fits a byte.
    pub fn new(kind: ControlKind, address: u8, start: u32) -> Self {
        Control {
            kind,
            address,
            block: start as u8,
        }
    }

    pub fn bytes(&self) -> [u8; CONTROL] {
        [self.kind as u8, self.address, self.block]
    }

    pub fn read(bytes: &[u8]) -> Result<Self, Refusal> {
        let mut first = *bytes.first().ok_or(Refusal::TooShort)?;
        if planted(Fault::KindOfTwoBits) {
            first %= 4;
        }
        let kind = ControlKind::of(first).ok_or(Refusal::UnknownKind)?;
        let long = bytes.len() > CONTROL;
        refuse(
            long && planted(Fault::LongControlRefused),
            Refusal::TooShort,
        )?;
        let (address, block) = match *bytes {
            [_, address, block, ..] => (address, block),
            [_, address] if planted(Fault::TwoBytesAccepted) => (address, 0),
            _ => return Err(Refusal::TooShort),
        };
        Ok(Control {
            kind,
            address,
            block,
        })
    }

    pub fn check_address(&self) -> Result<(), Refusal> {
        let last = unless(Fault::AddressFeAccepted, LAST_ADDRESS, LAST_ADDRESS + 1);
        refuse(self.address > last, Refusal::BadAddress)
    }

    /// The block of a message, as starts are counted.
    pub fn start(&self) -> u32 {
        self.block.into()
    }
}
