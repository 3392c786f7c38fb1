//! The refusal numbers.

/// Writes the enum, and each refusal's sentence once more as text.
macro_rules! refusals {
    ($(#[doc = $line:literal] $name:ident = $number:literal,)+) => {
        /// Why a call is refused, by refusal number.
        #[derive(Clone, Copy, Debug, PartialEq, Eq)]
        pub enum Refusal {
            $(#[doc = $line] $name = $number,)+
        }

        impl Refusal {
            pub const ALL: &[Refusal] = &[$(Refusal::$name),+];

            /// The cause, in a short sentence.
            pub fn sentence(self) -> &'static str {
                match self {
                    $(Refusal::$name => $line.trim_ascii_start(),)+
                }
            }
        }
    };
}

refusals! {
    /// the alignment is not a power of two from 4 to 256
    BadAlignment = 1,
    /// a block count is not one of 1 to 256
    BadBlockCount = 2,
    /// the region's begin is not below its end, or it has over 1,048,576 bytes
    BadBounds = 3,
    /// the region is too small for its ring, or for its blocks of one alignment each
    TooSmall = 4,
    /// the two regions share a byte
    Overlap = 5,
    /// the lent slice is not the whole region, or the end is closed
    WrongRegion = 6,
    /// the partner's index is out of rule
    BadIndex = 7,
    /// the ring is empty
    Empty = 8,
    /// the packet is longer than the unread bytes
    BrokenPacket = 9,
    /// the ring is full: the packet does not fit now
    Full = 10,
    /// the content has over 65,535 bytes
    TooLong = 11,
    /// the control message is too short
    TooShort = 12,
    /// the control message is of unknown kind, and ignored
    UnknownKind = 13,
    /// the address is above 0xfd
    BadAddress = 14,
    /// no bound endpoint has the address
    NotBound = 15,
    /// the block number is not below the block count
    BadBlock = 16,
    /// K + 4 bytes run past the last block
    PastTheLastBlock = 17,
    /// a block of the message is held already
    BlockHeld = 18,
    /// a binding was sent to an initiator
    NotFollower = 19,
    /// the name is empty, too long, has a zero or is not zero-ended
    BadName = 20,
    /// the name or address is taken already
    NameTaken = 21,
    /// no place is left: there are eight already
    NoPlace = 22,
    /// the message is longer than can ever fit
    CannotFit = 23,
    /// no run of free blocks is long enough
    NoRoom = 24,
    /// no live message starts there in the state that the call needs
    NoMessage = 25,
    /// the buffer is shorter than the content
    ShortBuffer = 26,
    /// the path has no tag or over five, or passes through a tag below 0x80
    BadPath = 27,
    /// the hand-set sheet is malformed
    BadHandSheet = 28,
    /// the incoming sheet is malformed
    BadIncomingSheet = 29,
    /// neither sheet has the path
    NotFound = 30,
}

/// A check that fails if something is the case.
pub fn refuse(fails: bool, refusal: Refusal) -> Result<(), Refusal> {
    if fails {
        Err(refusal)
    } else {
        Ok(())
    }
}

/// What an outcome is called, by its number; 0 is no refusal.
pub fn outcome_name(number: u32) -> String {
    match number {
        0 => "accepted".to_string(),
        _ => format!("refusal {number}"),
    }
}
