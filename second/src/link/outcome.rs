//! What a call on a ring answers a program in C.

use std::fmt::{self, Display, Formatter};

use crate::link::refusal::outcome_name;
use crate::link::ring::{packet_length, past, Moved, RefusedPull};

/// Numbers in a whole answer: length, own index after the call, dropped bytes.
pub const ANSWER: usize = 3;

/// What a call comes to; refusal 0 is an accepted one.
#[derive(Clone, Copy, PartialEq, Eq)]
pub struct Outcome {
    pub refusal: u32,
    pub length: u32,
    /// After the call.
    pub own_index: u32,
    /// Unread bytes that are gone.
    dropped: u32,
}

impl Outcome {
    pub fn new(refusal: u32, answer: [u32; ANSWER]) -> Self {
        let [length, own_index, dropped] = answer;
        Outcome {
            refusal,
            length,
            own_index,
            dropped,
        }
    }

    /// For a content of that length in a ring with that many data bytes.
    pub fn accepted(content_length: usize, own_index: u32, data_length: usize) -> Self {
        let packet_length = packet_length(content_length);
        Outcome {
            refusal: 0,
            length: content_length as u32,
            own_index: past(own_index as usize, packet_length, data_length),
            dropped: 0,
        }
    }

    pub fn refused(refusal: u32, own_index: u32) -> Self {
        Outcome {
            refusal,
            length: 0,
            own_index,
            dropped: 0,
        }
    }

    /// By a broken packet, with so many unread bytes up to the partner's index.
    pub fn broken(partner_index: u32, unread: usize) -> Self {
        Outcome {
            dropped: unread as u32,
            ..Outcome::refused(9, partner_index)
        }
    }

    /// Of a call that was handed this index.
    pub fn of(own_index: u32, result: Result<Moved, impl Into<RefusedPull>>) -> Self {
        match result.map_err(Into::into) {
            Ok(Moved { length, own_index }) => Outcome {
                refusal: 0,
                length,
                own_index,
                dropped: 0,
            },
            Err(RefusedPull { refusal, dropped }) => {
                let refusal = refusal as u32;
                let own_index = dropped.map_or(own_index, |dropped| dropped.own_index);
                Outcome {
                    dropped: dropped.map_or(0, |dropped| dropped.bytes),
                    ..Outcome::refused(refusal, own_index)
                }
            }
        }
    }

    /// The whole answer.
    pub fn values(&self) -> [u32; ANSWER] {
        [self.length, self.own_index, self.dropped]
    }

    pub fn write(&self, answer: &mut [u32]) {
        write(&self.values(), answer);
    }
}

/// Writes as much of a whole answer as there is space for.
pub fn write(values: &[u32], answer: &mut [u32]) {
    for (element, &value) in answer.iter_mut().zip(values) {
        *element = value;
    }
}

impl Display for Outcome {
    fn fmt(&self, f: &mut Formatter) -> fmt::Result {
        write!(
            f,
            "{}, length {}, own index {}, {} bytes dropped",
            outcome_name(self.refusal),
            self.length,
            self.own_index,
            self.dropped
        )
    }
}
