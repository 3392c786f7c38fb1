//! One end of a link: its opening, and what it keeps between calls.
//!
//! A closed end is none at all, so its calls have nothing to work on.

mod answer;
mod arrivals;
mod binding;
mod control;
mod messages;
mod region;
mod registering;
mod rings;
mod runs;
mod telling;

pub use answer::{Answer, Given, Outcome, Refused, Slice};
pub use binding::{Endpoint, Name, LONGEST_NAME, MOST_ENDPOINTS};
pub use control::{Control, ControlKind, BOUND, CONTROL, DATA, RELEASE_BOUND};
pub use messages::{Incoming, Outgoing};
pub use region::{number_at, Message, Region, HEADER};

use crate::link::fault::{planted, unless, Fault};
use crate::link::layout::{self, Request};
use crate::link::refusal::Refusal;
use runs::Runs;

/// The last address an endpoint can have.
pub const LAST_ADDRESS: u8 = 0xFD;

/// What an end is opened with.
#[derive(Clone, Copy)]
pub struct Opening {
    pub transmit_begin: u32,
    pub transmit_end: u32,
    pub receive_begin: u32,
    pub receive_end: u32,
    pub transmit_blocks: u32,
    pub receive_blocks: u32,
    pub alignment: u32,
}

impl Opening {
    /// A follower of the public specification's example: regions of 2,048
    /// bytes, transmit blocks of 96 bytes and receive blocks of 32.
    pub const EXAMPLE: Opening = Opening {
        transmit_begin: 0x2007_0000,
        transmit_end: 0x2007_0800,
        receive_begin: 0x2007_8000,
        receive_end: 0x2007_8800,
        transmit_blocks: 16,
        receive_blocks: 32,
        alignment: 32,
    };

    pub fn transmit(&self) -> Request {
        Request {
            begin: self.transmit_begin,
            end: self.transmit_end,
            local_blocks: self.transmit_blocks,
            remote_blocks: self.receive_blocks,
            alignment: self.alignment,
        }
    }

    pub fn receive(&self) -> Request {
        self.swapped().transmit()
    }

    /// The partner's.
    pub const fn swapped(&self) -> Self {
        Opening {
            transmit_begin: self.receive_begin,
            transmit_end: self.receive_end,
            receive_begin: self.transmit_begin,
            receive_end: self.transmit_end,
            transmit_blocks: self.receive_blocks,
            receive_blocks: self.transmit_blocks,
            alignment: self.alignment,
        }
    }
}

/// An end, open or closed.
pub struct End {
    open: Option<Open>,
}

impl End {
    /// The end that an opening gives, and what comes of the opening.
    pub fn open(opening: &Opening) -> (Self, Outcome) {
        match Open::new(opening) {
            Ok(open) => {
                let wrong = Given::Run { start: 0, count: 0 };
                let given = unless(Fault::OpeningGivesRun, Given::Nothing, wrong);
                let outcome = Outcome::new(Ok(Answer::giving(given)));
                (End { open: Some(open) }, outcome)
            }
            Err(refusal) => (End { open: None }, Outcome::new(Err(refusal))),
        }
    }

    pub fn call(&mut self, call: impl FnOnce(&mut Open) -> Result<Answer, Refusal>) -> Outcome {
        Outcome::new(self.answer(call))
    }

    /// A ring call, which gives a length even if it is refused.
    pub fn ring_call(
        &mut self,
        call: impl FnOnce(&mut Open) -> Result<Answer, Refusal>,
    ) -> Outcome {
        let refused = |refusal| Refused::from(refusal).giving(Given::Length(0));
        self.answer(call).map_err(refused).into()
    }

    /// A ring call whose refusal may have its own answer.
    pub fn pull_call(
        &mut self,
        call: impl FnOnce(&mut Open) -> Result<Answer, Refused>,
    ) -> Outcome {
        let given = unless(Fault::EveryPullDrops, Given::Length(0), Given::Dropped(0));
        let given = unless(Fault::PullGivesNothing, given, Given::Nothing);
        let refused = |refused: Refused| refused.giving(given);
        self.answer(call).map_err(refused).into()
    }

    fn answer<E: From<Refusal>>(
        &mut self,
        call: impl FnOnce(&mut Open) -> Result<Answer, E>,
    ) -> Result<Answer, E> {
        call(self.open.as_mut().ok_or(Refusal::WrongRegion)?)
    }

    /// What it keeps, if it is open.
    pub fn state(&self) -> Option<&Open> {
        self.open.as_ref()
    }

    /// Free blocks, to transmit and to receive.
    pub fn free_blocks(&self) -> [u32; 2] {
        match &self.open {
            Some(open) => [
                open.transmit.free(&open.outgoing),
                open.receive.free(&open.incoming),
            ],
            None => [0, 0],
        }
    }
}

/// What an open end keeps.
pub struct Open {
    pub transmit: Region,
    pub receive: Region,
    pub initiator: bool,
    /// Where the next packet to push begins.
    pub write_index: u32,
    /// Where the next packet to pull begins.
    pub read_index: u32,
    pub outgoing: Runs<Outgoing>,
    /// Stored bindings are among them.
    pub incoming: Runs<Incoming>,
    pub endpoints: Vec<Endpoint>,
}

impl Open {
    fn new(opening: &Opening) -> Result<Self, Refusal> {
        if planted(Fault::ReceiveFirst) {
            Region::new(opening.receive())?;
        }
        let transmit = Region::new(opening.transmit())?;
        let receive = Region::new(opening.receive())?;
        if !apart(&transmit, &receive) {
            return Err(Refusal::Overlap);
        }
        Ok(Open {
            transmit,
            receive,
            initiator: opening.receive_begin < opening.transmit_begin,
            write_index: 0,
            read_index: 0,
            outgoing: Runs::new(),
            incoming: Runs::new(),
            endpoints: Vec::new(),
        })
    }
}

/// True if two raw regions share no byte; they may touch.
fn apart(one: &Region, other: &Region) -> bool {
    let [one, other] = [one, other].map(|Region { request, layout }| {
        let raw = request.begin..request.end;
        let raw = unless(Fault::RoundedOverlap, raw, layout.begin..layout.end);
        let wrong = raw.start..raw.end.saturating_add(1);
        unless(Fault::TouchingRefused, raw, wrong)
    });
    layout::apart(&one, &other)
}
