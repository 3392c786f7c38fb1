//! What the transmit ring of a script's end has refused to send, register and
//! done, as its rows tell it.

use std::collections::BTreeSet;

use super::outcomes::Role;
use crate::link::end::{Slice, CONTROL};
use crate::link::ring::{packet_length, START_CONTENT};
use crate::link::script::{Record, Row};

/// What was refused by 10 stays as it was, and can be tried again.
#[derive(Default)]
pub struct RefusedPushes {
    /// The number by which the ring refused a control message, as long as nothing
    /// has changed the ring since.
    now: Option<u32>,
    /// Starts of reservations.
    sends: BTreeSet<u32>,
    /// Starts of received messages.
    dones: BTreeSet<u32>,
    names: BTreeSet<Vec<u8>>,
}

impl RefusedPushes {
    /// What else a call is counted as. Other calls that are refused by 6 say
    /// nothing of what was refused before, nor does 22, as others have taken the
    /// places.
    pub fn call(&self, role: Role, record: &Record, row: &Row) -> Option<&'static str> {
        match (record, role, row.number()) {
            (_, Role::Closed, _) => None,
            (Record::Done { .. }, _, 6) => Some("done, wrong slice"),
            (_, _, 6 | 22) => None,
            (Record::Send { start, .. }, ..) if self.sends.contains(start) => {
                Some("send, 10 before")
            }
            (Record::Done { start }, ..) if self.dones.contains(start) => Some("done, 10 before"),
            (Record::Register(name), Role::Initiator, _) if self.names.contains(*name) => {
                Some("initiator, 10 before")
            }
            (Record::Register(name), Role::Follower, _) if self.names.contains(*name) => {
                Some("follower, 10 before")
            }
            (Record::Register(_), Role::Follower, 0) if row.values().is_empty() => {
                match self.now? {
                    7 => Some("waits on a bad index"),
                    _ => Some("waits on a full ring"),
                }
            }
            _ => None,
        }
    }

    /// The call has been made.
    pub fn follow(&mut self, record: &Record, row: &Row) {
        self.follow_ring(record, row);
        match (record, row.number()) {
            (Record::Send { start, .. }, 10) => {
                self.sends.insert(*start);
            }
            (Record::Done { start }, 10) => {
                self.dones.insert(*start);
            }
            (Record::Register(name), 10) => {
                self.names.insert(name.to_vec());
            }
            (Record::Send { start, .. } | Record::Drop { start }, 0) => {
                self.sends.remove(start);
            }
            (Record::Done { start }, 0) => {
                self.dones.remove(start);
            }
            (Record::Register(name), 0) => {
                self.names.remove(*name);
            }
            _ => {}
        }
    }

    fn follow_ring(&mut self, record: &Record, row: &Row) {
        let control_packet = packet_length(CONTROL);
        let packet = match record {
            Record::Send { .. } | Record::Done { .. } | Record::Register(_) => control_packet,
            Record::Push(content) => packet_length(content.len()),
            Record::Start => packet_length(START_CONTENT.len()),
            // It may be the partner's index that is written.
            Record::Write {
                slice: Slice::Transmit,
                ..
            } => return self.now = None,
            _ => return,
        };
        match row.number() {
            // What is given was pushed; a follower that waits pushes nothing.
            0 if row.given() != 0 => self.now = None,
            7 => self.now = Some(7),
            10 if packet <= control_packet => self.now = Some(10),
            _ => {}
        }
    }
}
