//! Control messages from the partner.

use super::answer::{Answer, Given};
use super::binding::Name;
use super::control::{Control, ControlKind, CONTROL};
use super::messages::{Incoming, Outgoing};
use super::region::{Message, Region};
use super::Open;
use crate::link::fault::{in_order, planted, unless, Fault};
use crate::link::refusal::Refusal;

impl Open {
    pub fn arrival(&mut self, receive: &[u8], control: &[u8]) -> Result<Answer, Refusal> {
        let whole = self.receive.check_whole(receive.len());
        let long = control.len() > CONTROL;
        let control = Control::read(control);
        in_order(Fault::WrongRegionLast, whole, control.map(|_| ()))?;
        let control = control?;
        let mut answer = match control.kind {
            ControlKind::Data => self.data(receive, control),
            ControlKind::ReleaseData => self.release_data(control),
            ControlKind::Bound => self.bound(receive, control),
            ControlKind::ReleaseBound => self.release_bound(control),
        }?;
        if long && planted(Fault::LongBoundGivesDelivery) {
            answer.given = answer.given.as_delivery();
        }
        Ok(answer)
    }

    /// Data is also a sign that the partner has taken the binding of an endpoint
    /// that still waits. Its blocks stay in use: the partner releases them.
    fn data(&mut self, receive: &[u8], control: Control) -> Result<Answer, Refusal> {
        let address = control.address;
        let reached = self.check_reached(control)?;
        let waits = !self.endpoints[reached].bound;
        let message = self.message(receive, control);
        let binds = match &message {
            Ok(_) => !planted(Fault::DataLeavesWaiting),
            Err(Refusal::BadBlock) => planted(Fault::BadBlockBinds),
            Err(Refusal::PastTheLastBlock) => planted(Fault::PastLastBinds),
            Err(_) => planted(Fault::HeldBlockBinds),
        };
        if waits && binds {
            self.bind_by_data(reached, control);
        }
        let Message { start, count, k } = message?;
        if waits && planted(Fault::EarlyDataSwallowed) {
            return Ok(Answer::default());
        }
        let kept = unless(Fault::SizeInTwoBytes, k, k & 0xFFFF);
        self.incoming.hold(start, count, Incoming::Data { k: kept });
        let given = Given::Delivery { address, start, k };
        let wrong = Given::Control([address, control.block, k as u8]);
        let given = unless(Fault::DataGivesControl, given, wrong);
        Ok(Answer::giving(given))
    }

    /// The endpoint that data is for, by its place.
    fn check_reached(&self, control: Control) -> Result<usize, Refusal> {
        let reached = self.reached(control.address);
        let good = control.check_address();
        if planted(Fault::BlockBeforeBound) {
            good.and(self.receive.check_block(control.start()))?;
        }
        in_order(Fault::BoundBeforeAddress, good, reached.map(|_| ()))?;
        reached
    }

    /// The partner is done with a data message. What it takes was recorded
    /// here: its header can have changed.
    fn release_data(&mut self, control: Control) -> Result<Answer, Refusal> {
        check_released(&self.transmit, control)?;
        let mut start = control.start();
        if planted(Fault::MiddleReleased) {
            let mut runs = self.outgoing.iter();
            let covering = runs.find(|run| run.blocks().contains(&start));
            start = covering.map_or(start, |run| run.start);
        }
        self.outgoing.find(start, |state| match state {
            Outgoing::Data => true,
            Outgoing::Binding { .. } => planted(Fault::BindingReleasedAsData),
            Outgoing::Reserved => planted(Fault::ReservationReleased),
        })?;
        self.outgoing.release(start);
        Ok(Answer::default())
    }

    fn bound(&mut self, receive: &[u8], control: Control) -> Result<Answer, Refusal> {
        let address = control.address;
        let role = self.check_role();
        in_order(Fault::RoleAfterAddress, role, control.check_address())?;
        let Message { start, count, k } = self.message(receive, control)?;
        let name = Name::arriving(&receive[self.receive.header(start).end..], k)?;
        let taken = self.check_taken(&name, address);
        in_order(Fault::PlaceBeforeTaken, taken, self.check_stored(&name))?;
        if let Some(endpoint) = self.waiting(&name) {
            endpoint.bind(address);
            if planted(Fault::BoundHolds) {
                self.incoming.hold(start, count, Incoming::Data { k });
            }
            let reply = Control::new(ControlKind::ReleaseBound, address, start);
            return Ok(Answer::giving(Given::Control(reply.bytes())));
        }
        self.incoming
            .hold(start, count, Incoming::Stored { name, address });
        Ok(Answer::default())
    }

    /// The partner has taken a binding; if data came first, its endpoint is bound
    /// already.
    fn release_bound(&mut self, control: Control) -> Result<Answer, Refusal> {
        let Control { address, .. } = control;
        let in_range = check_released(&self.transmit, control);
        in_order(Fault::BlockBeforeAddress, control.check_address(), in_range)?;
        let start = control.start();
        if planted(Fault::RefusedReleaseBinds) {
            self.confirm(address);
        }
        let late = self.check_bound(address.into()).is_ok();
        let sent = self.outgoing.find(start, |state| match state {
            Outgoing::Binding { address: sent } => {
                let refused = late && planted(Fault::LateReleaseRefused);
                !refused && (*sent == address || planted(Fault::AnyAddressReleased))
            }
            Outgoing::Data | Outgoing::Reserved => false,
        });
        if sent.is_err() && late && planted(Fault::SecondReleaseTaken) {
            return Ok(Answer::default());
        }
        sent?;
        if !(late && planted(Fault::LateReleaseHolds)) {
            self.outgoing.release(start);
        }
        self.confirm(address);
        Ok(Answer::default())
    }

    /// Lets the headers in the transmit region decide what sent messages take,
    /// if it is less: what the planted fault does.
    pub fn trust_headers(&mut self, transmit: &[u8]) {
        if self.transmit.check_whole(transmit.len()).is_err() {
            return;
        }
        for run in self.outgoing.iter_mut() {
            if matches!(run.state, Outgoing::Data) {
                let k = self.transmit.read_k(transmit, run.start);
                let count = self.transmit.count_for(k);
                run.count = count.min(run.count.into()) as u32;
            }
        }
    }

    /// The message that a control message announces. Its size is read here and
    /// never again.
    fn message(&self, receive: &[u8], control: Control) -> Result<Message, Refusal> {
        let message = self.receive.message(receive, control.start())?;
        let looked_at = unless(Fault::FirstBlockLookedAt, message.count, 1);
        let blocks = message.start..message.start + looked_at;
        if self.incoming.meet(&blocks, |state| match state {
            Incoming::Data { .. } => true,
            Incoming::Stored { .. } => !planted(Fault::StoredHoldsNothing),
        }) {
            return Err(Refusal::BlockHeld);
        }
        Ok(message)
    }
}

/// The block number of a release.
fn check_released(region: &Region, control: Control) -> Result<(), Refusal> {
    let block = control.start();
    let wrong = block.saturating_sub(1);
    region.check_block(unless(Fault::BlockAtCount, block, wrong))
}
