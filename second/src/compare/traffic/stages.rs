//! How far the endpoints of a script's end have come, as its rows tell it.

use std::collections::BTreeMap;

use crate::link::end::{BOUND, DATA, RELEASE_BOUND};
use crate::link::script::{Record, Row};

/// How far an initiator's endpoint has come.
#[derive(Clone, Copy, PartialEq, Eq)]
enum Stage {
    Waiting,
    /// It waits, and data for it was refused by 16, 17 or 18.
    RefusedBefore,
    /// Data has come, and its binding is not released.
    BoundByData,
    Released,
}

/// An initiator's endpoint.
struct Announced {
    /// Where its binding starts.
    start: u32,
    stage: Stage,
}

/// The endpoints of one end.
#[derive(Default)]
pub struct Stages {
    /// An initiator's, by address.
    announced: BTreeMap<u32, Announced>,
    /// How many of a follower's wait.
    waiting: usize,
    /// One of a follower's is bound to address 0.
    zero_is_bound: bool,
}

impl Stages {
    /// What else a call is counted as. One that is refused by 6 says nothing
    /// about an endpoint, nor does a release of other blocks.
    pub fn call(&self, record: &Record, row: &Row) -> Option<&'static str> {
        if row.number() == 6 {
            return None;
        }
        match *record {
            Record::Arrival([DATA, 0, _, ..]) if self.waiting > 0 && !self.zero_is_bound => {
                Some("data 0, follower waits")
            }
            Record::Arrival(&[DATA, address, _, ..]) => match self.of(address.into())?.stage {
                Stage::Waiting => Some("data, waiting"),
                Stage::RefusedBefore => Some("data, refused before"),
                Stage::BoundByData => Some("data, bound by data"),
                Stage::Released => None,
            },
            Record::Arrival(&[RELEASE_BOUND, address, block, ..]) => {
                let announced = self.of(address.into())?;
                let call = match announced.stage {
                    Stage::Waiting => "kind 3, waiting",
                    Stage::RefusedBefore => "kind 3, refused before",
                    Stage::BoundByData => "kind 3, bound by data",
                    Stage::Released => "kind 3, a second time",
                };
                (announced.start == block.into()).then_some(call)
            }
            Record::Send { address, .. } => match self.of(address)?.stage {
                Stage::Waiting => Some("send, waiting"),
                Stage::RefusedBefore => Some("send, refused before"),
                Stage::BoundByData => Some("send, bound by data"),
                Stage::Released => None,
            },
            _ => None,
        }
    }

    /// The call has been made.
    pub fn follow(&mut self, record: &Record, row: &Row) {
        match (record, row.number(), row.values()) {
            (Record::Register(_), 0, &[kind, address, start]) if kind == BOUND.into() => {
                let stage = Stage::Waiting;
                self.announced.insert(address, Announced { start, stage });
            }
            (Record::Register(_), 0, &[_, address, _]) => self.zero_is_bound |= address == 0,
            (Record::Register(_), 0, []) => self.waiting += 1,
            (Record::Arrival([BOUND, ..]), 0, &[_, address, _]) => {
                self.waiting = self.waiting.saturating_sub(1);
                self.zero_is_bound |= address == 0;
            }
            (Record::Arrival([DATA, address, ..]), number, _) => self.data(*address, number),
            (Record::Arrival([RELEASE_BOUND, address, ..]), 0, _) => {
                self.go_to(*address, Stage::Released);
            }
            _ => {}
        }
    }

    fn data(&mut self, address: u8, number: u32) {
        let waits = self.of(address.into()).is_some_and(|announced| {
            matches!(announced.stage, Stage::Waiting | Stage::RefusedBefore)
        });
        match number {
            0 if waits => self.go_to(address, Stage::BoundByData),
            16..=18 if waits => self.go_to(address, Stage::RefusedBefore),
            _ => {}
        }
    }

    fn of(&self, address: u32) -> Option<&Announced> {
        self.announced.get(&address)
    }

    fn go_to(&mut self, address: u8, stage: Stage) {
        if let Some(announced) = self.announced.get_mut(&address.into()) {
            announced.stage = stage;
        }
    }
}
