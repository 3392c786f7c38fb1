//! Registering an endpoint, which tells the partner of it or waits to be told.

use std::ops::Range;

use super::answer::{Answer, Given};
use super::binding::{Endpoint, Name, MOST_ENDPOINTS};
use super::control::{Control, ControlKind};
use super::messages::{Incoming, Outgoing};
use super::telling::{spoiled, Notice};
use super::Open;
use crate::link::fault::{in_order, planted, unless, Fault};
use crate::link::refusal::{refuse, Refusal};

impl Open {
    pub fn register(&mut self, transmit: &mut [u8], name: &[u8]) -> Result<Answer, Refusal> {
        self.transmit.check_whole(transmit.len())?;
        if self.initiator {
            self.full_early(Fault::FullBeforeName, transmit)?;
            self.index_early(Fault::IndexBeforeName, transmit)?;
        }
        let name = Name::registered(name)?;
        let new = self.check_new(&name);
        if !self.initiator && new.is_err() {
            self.full_early(Fault::FullBeforeTaken, transmit)?;
        }
        new?;
        if self.initiator {
            self.full_early(Fault::FullBeforeRoom, transmit)?;
            let announced = self.announced(name)?;
            return self.tell(transmit, announced);
        }
        match self.stored(&name) {
            Some((start, address)) => {
                let taken = Taken {
                    name,
                    address,
                    start,
                };
                self.tell(transmit, taken)
            }
            None => self.wait(transmit, name),
        }
    }

    /// Refuses a name that is registered already, and one endpoint too many.
    fn check_new(&self, name: &Name) -> Result<(), Refusal> {
        let owns = |endpoint: &Endpoint| {
            endpoint.name == *name && (endpoint.bound || !planted(Fault::WaitingNameFree))
        };
        let taken = refuse(self.endpoints.iter().any(owns), Refusal::NameTaken);
        let most = unless(Fault::NinthEndpoint, MOST_ENDPOINTS, MOST_ENDPOINTS + 1);
        let full = refuse(self.endpoints.len() >= most, Refusal::NoPlace);
        in_order(Fault::PlaceBeforeName, taken, full)
    }

    /// How an initiator names its endpoint to the partner, which confirms it
    /// later.
    fn announced(&self, name: Name) -> Result<Announced, Refusal> {
        let k = name.zero_ended().len() as u32;
        let [start, count] = self.free_run(k)?;
        Ok(Announced {
            name,
            address: self.unused_address(),
            start,
            count,
        })
    }

    fn unused_address(&self) -> u8 {
        let used = |address: &u8| {
            let mut endpoints = self.endpoints.iter();
            endpoints.any(|endpoint| endpoint.address == Some(*address))
        };
        let mut unused = (0..).filter(|address| !used(address));
        unused.next().expect("fewer endpoints than addresses")
    }

    /// Start and address of the stored binding of that name.
    fn stored(&self, name: &Name) -> Option<(u32, u8)> {
        self.incoming.iter().find_map(|run| match &run.state {
            Incoming::Stored {
                name: stored,
                address,
            } if stored == name => Some((run.start, *address)),
            _ => None,
        })
    }

    /// Waits for a binding to arrive. The partner is told nothing yet, so the
    /// ring may be in any state.
    fn wait(&mut self, transmit: &mut [u8], name: Name) -> Result<Answer, Refusal> {
        let reply = Control::new(ControlKind::ReleaseBound, 0, 0).bytes();
        if planted(Fault::WaitingLooks) {
            self.check_ring(transmit)?;
        }
        if planted(Fault::WaitingPushes) {
            self.push(transmit, &reply)?;
        }
        self.endpoints.push(Endpoint {
            name,
            address: None,
            bound: false,
        });
        let wrong = Given::Control(reply);
        let given = unless(Fault::WaitingGivesControl, Given::Nothing, wrong);
        Ok(Answer::giving(given))
    }
}

/// An initiator's endpoint, and the blocks for its binding message.
struct Announced {
    name: Name,
    address: u8,
    start: u32,
    count: u32,
}

impl Announced {
    /// Writes the binding message, and gives its place.
    fn write(&self, open: &Open, transmit: &mut [u8]) -> Range<usize> {
        let region = &open.transmit;
        let content = self.name.zero_ended();
        let place = region.content(self.start, content.len());
        region.write_k(transmit, self.start, content.len() as u32);
        transmit[place.clone()].copy_from_slice(&content);
        region.header(self.start).start..place.end
    }

    fn hold(&self, open: &mut Open) {
        let address = self.address;
        let binding = Outgoing::Binding { address };
        open.outgoing.hold(self.start, self.count, binding);
    }

    fn endpoint(self) -> Endpoint {
        Endpoint {
            name: self.name,
            address: Some(self.address),
            bound: false,
        }
    }
}

impl Notice for Announced {
    fn control(&self) -> Control {
        Control::new(ControlKind::Bound, self.address, self.start)
    }

    fn take_effect(self, open: &mut Open, transmit: &mut [u8]) -> Option<Range<usize>> {
        let written = self.write(open, transmit);
        self.hold(open);
        open.endpoints.push(self.endpoint());
        Some(written)
    }

    fn spoil(self, open: &mut Open, transmit: &mut [u8], refusal: Refusal) {
        if planted(Fault::BindingBeforeRing) {
            self.write(open, transmit);
        }
        if refusal == Refusal::Full && planted(Fault::FullHoldsBinding) {
            self.hold(open);
        }
        if registers(refusal) {
            open.endpoints.push(self.endpoint());
        }
    }
}

/// A follower's endpoint, and the stored binding that it is bound by.
struct Taken {
    name: Name,
    address: u8,
    start: u32,
}

impl Taken {
    fn endpoint(self) -> Endpoint {
        Endpoint {
            name: self.name,
            address: Some(self.address),
            bound: true,
        }
    }
}

impl Notice for Taken {
    fn control(&self) -> Control {
        Control::new(ControlKind::ReleaseBound, self.address, self.start)
    }

    fn take_effect(self, open: &mut Open, _: &mut [u8]) -> Option<Range<usize>> {
        if !planted(Fault::TakenBindingHolds) {
            open.incoming.release(self.start);
        }
        open.endpoints.push(self.endpoint());
        None
    }

    fn spoil(self, open: &mut Open, _: &mut [u8], refusal: Refusal) {
        if spoiled(
            refusal,
            Fault::FullForgetsStored,
            Fault::BadIndexForgetsStored,
        ) {
            open.incoming.release(self.start);
        }
        if registers(refusal) {
            open.endpoints.push(self.endpoint());
        }
    }
}

/// True if a planted fault registers an endpoint though the ring refuses.
fn registers(refusal: Refusal) -> bool {
    spoiled(refusal, Fault::FullRegisters, Fault::BadIndexRegisters)
}
