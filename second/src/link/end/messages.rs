//! Messages in blocks: reserving, sending, viewing and giving back.

use std::ops::Range;

use super::answer::{Answer, Given};
use super::binding::Name;
use super::control::{Control, ControlKind};
use super::region::framed;
use super::runs::Run;
use super::telling::{spoiled, Notice};
use super::{Open, HEADER};
use crate::link::fault::{in_order, planted, unless, Fault};
use crate::link::refusal::{refuse, Refusal};

/// What transmit blocks are in use for.
pub enum Outgoing {
    Reserved,
    Data,
    Binding { address: u8 },
}

impl Outgoing {
    fn is_reserved(&self) -> bool {
        matches!(self, Outgoing::Reserved)
    }
}

/// What receive blocks are in use for.
pub enum Incoming {
    Data {
        k: u32,
    },
    /// A binding whose name nobody has registered yet.
    Stored {
        name: Name,
        address: u8,
    },
}

impl Open {
    pub fn reserve(&mut self, k: u32) -> Result<Answer, Refusal> {
        let [start, count] = self.free_run(k)?;
        self.outgoing.hold(start, count, Outgoing::Reserved);
        Ok(Answer::giving(Given::Run { start, count }))
    }

    /// Start and count of the blocks that a new message of `k` bytes takes.
    pub fn free_run(&self, k: u32) -> Result<[u32; 2], Refusal> {
        let all = self.transmit.block_count();
        let needed = unless(
            Fault::HeaderUnreserved,
            self.transmit.count_for(k),
            self.transmit.count_for(k.saturating_sub(HEADER as u32)),
        );
        if needed > u64::from(all) {
            let wrong = Refusal::NoRoom;
            return Err(unless(Fault::CannotFitIsNoRoom, Refusal::CannotFit, wrong));
        }
        let count = needed as u32;
        Ok([self.outgoing.lowest_free(count, all)?, count])
    }

    /// Lends a room. Nothing is written: what is in it is the caller's.
    pub fn room(&mut self, transmit: &mut [u8], start: u32) -> Result<Answer, Refusal> {
        let place = self.room_place(transmit.len(), start);
        spoil_room(transmit, &place);
        Ok(Answer {
            place: place?,
            ..Answer::default()
        })
    }

    /// The place of a room, in a transmit region lent with that length.
    fn room_place(&mut self, lent_length: usize, start: u32) -> Result<Range<usize>, Refusal> {
        self.transmit.check_whole(lent_length)?;
        let run = self.outgoing.find(start, |state| match state {
            Outgoing::Reserved => true,
            Outgoing::Data => planted(Fault::RoomOfSent),
            Outgoing::Binding { .. } => false,
        })?;
        let end = self.transmit.block_offset(run.blocks().end);
        Ok(self.transmit.header(start).end..end)
    }

    /// Whether a region lent with that length would have the room.
    pub fn room_question(&mut self, lent_length: u32, start: u32) -> Result<Answer, Refusal> {
        self.room_place(lent_length as usize, start)?;
        Ok(Answer::default())
    }

    pub fn send(
        &mut self,
        transmit: &mut [u8],
        start: u32,
        address: u32,
        k: u32,
    ) -> Result<Answer, Refusal> {
        self.transmit.check_whole(transmit.len())?;
        self.full_early(Fault::FullBeforeReserved, transmit)?;
        self.index_early(Fault::IndexBeforeReserved, transmit)?;
        let bound = self.check_bound(address);
        if planted(Fault::BoundBeforeStart) {
            bound?;
        }
        let run = self.outgoing.find(start, Outgoing::is_reserved)?;
        let [start, count] = [run.start, run.count];
        let too_long = framed(k) > self.transmit.bytes_of(count);
        let fits = refuse(
            too_long && !planted(Fault::SendUnlimited),
            Refusal::CannotFit,
        );
        if planted(Fault::RefusedSendWrites) && bound.is_ok() {
            self.transmit.write_k(transmit, start, k);
        }
        let bound = self.full_early(Fault::FullBeforeBound, transmit).and(bound);
        let fits = self.full_early(Fault::FullBeforeFit, transmit).and(fits);
        in_order(Fault::FitBeforeBound, bound, fits)?;
        // The address is an endpoint's, which has a byte.
        let address = address as u8;
        self.tell(transmit, Sent { start, address, k })
    }

    /// Gives a reservation up.
    pub fn drop_reservation(&mut self, start: u32) -> Result<Answer, Refusal> {
        self.outgoing.find(start, |state| match state {
            Outgoing::Reserved => true,
            Outgoing::Data => planted(Fault::DropOfSent),
            Outgoing::Binding { .. } => false,
        })?;
        self.outgoing.release(start);
        Ok(Answer::default())
    }

    /// The place of a view; its size is the one read at arrival.
    pub fn view(&self, receive: &[u8], start: u32) -> Result<Answer, Refusal> {
        let k = self.view_length(receive.len(), start)?;
        let in_memory = self.receive.read_k(receive, start);
        let k = unless(Fault::SizeReadAgain, k, in_memory);
        let place = self.receive.content(start, k as usize);
        let wrong = place.start - HEADER..place.end - HEADER;
        Ok(Answer {
            place: unless(Fault::ViewFromHeader, place, wrong),
            ..Answer::default()
        })
    }

    /// K of the message that starts there, in a receive region lent with that
    /// length.
    fn view_length(&self, lent_length: usize, start: u32) -> Result<u32, Refusal> {
        self.receive.check_whole(lent_length)?;
        let mut lengths = self.incoming.iter().filter_map(|run| match run.state {
            Incoming::Data { k } if run.start == start => Some(k),
            _ => None,
        });
        lengths.next().ok_or(Refusal::NoMessage)
    }

    /// Whether a region lent with that length would have the view.
    pub fn view_question(&self, lent_length: u32, start: u32) -> Result<Answer, Refusal> {
        self.view_length(lent_length as usize, start)?;
        Ok(Answer::default())
    }

    /// Forgets a received message.
    pub fn done(&mut self, transmit: &mut [u8], start: u32) -> Result<Answer, Refusal> {
        let whole = self.transmit.check_whole(transmit.len());
        let held = self.incoming.find(start, |state| match state {
            Incoming::Data { .. } => true,
            Incoming::Stored { .. } => planted(Fault::DoneOfStored),
        });
        let held = held.map(|run| run.start);
        if whole.is_err() && planted(Fault::DoneLentAnything) {
            let mut beside = vec![0; self.transmit.length()];
            return self.tell(&mut beside, Forgotten { start: held? });
        }
        let lent = whole
            .and_then(|()| self.full_early(Fault::FullBeforeHeld, transmit))
            .and_then(|()| self.index_early(Fault::IndexBeforeHeld, transmit));
        in_order(Fault::HeldBeforeLent, lent, held.map(|_| ()))?;
        let mut answer = self.tell(transmit, Forgotten { start: held? })?;
        let wrong = answer.given.as_delivery();
        answer.given = unless(Fault::DoneGivesDelivery, answer.given, wrong);
        Ok(answer)
    }
}

/// A reservation that is sent.
struct Sent {
    start: u32,
    address: u8,
    k: u32,
}

impl Sent {
    fn run<'a>(&self, open: &'a mut Open) -> &'a mut Run<Outgoing> {
        let run = open.outgoing.find(self.start, Outgoing::is_reserved);
        run.expect("a reservation that was checked")
    }

    /// Frees the blocks beyond the need.
    fn trim(&self, open: &mut Open) {
        let count = open.transmit.count_for(self.k) as u32;
        self.run(open).count = count;
    }
}

impl Notice for Sent {
    fn control(&self) -> Control {
        Control::new(ControlKind::Data, self.address, self.start)
    }

    fn take_effect(self, open: &mut Open, transmit: &mut [u8]) -> Option<Range<usize>> {
        open.transmit.write_k(transmit, self.start, self.k);
        if !planted(Fault::SendKeepsAll) {
            self.trim(open);
        }
        self.run(open).state = Outgoing::Data;
        Some(open.transmit.header(self.start))
    }

    fn spoil(self, open: &mut Open, transmit: &mut [u8], refusal: Refusal) {
        if planted(Fault::HeaderBeforeRing) {
            open.transmit.write_k(transmit, self.start, self.k);
        }
        if refusal == Refusal::Full && planted(Fault::FullTrims) {
            self.trim(open);
        }
        if spoiled(refusal, Fault::FullSends, Fault::BadIndexSends) {
            self.run(open).state = Outgoing::Data;
        }
    }
}

/// A received message that is done with.
struct Forgotten {
    start: u32,
}

impl Notice for Forgotten {
    fn control(&self) -> Control {
        Control::new(ControlKind::ReleaseData, 0, self.start)
    }

    fn take_effect(self, open: &mut Open, _: &mut [u8]) -> Option<Range<usize>> {
        open.incoming.release(self.start);
        None
    }

    fn spoil(self, open: &mut Open, _: &mut [u8], refusal: Refusal) {
        if spoiled(refusal, Fault::FullForgets, Fault::BadIndexForgets) {
            open.incoming.release(self.start);
        }
    }
}

/// Writes what planted faults do to a transmit region whose room was asked for.
fn spoil_room(transmit: &mut [u8], place: &Result<Range<usize>, Refusal>) {
    const WRITTEN: u8 = 0xFF;
    match place {
        Ok(place) if planted(Fault::RoomWritesBefore) => transmit[place.start - 1] = WRITTEN,
        Ok(place) if planted(Fault::RoomCleared) => transmit[place.clone()].fill(0),
        Err(_) if planted(Fault::RefusedRoomWrites) => {
            if let Some(last) = transmit.last_mut() {
                *last = WRITTEN;
            }
        }
        _ => {}
    }
}
