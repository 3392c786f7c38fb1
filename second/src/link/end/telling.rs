//! What a call tells the partner: it pushes its control message itself, and if
//! the ring refuses that, it does nothing at all.

use std::ops::Range;

use super::answer::{Answer, Given};
use super::control::{Control, ControlKind, CONTROL};
use super::region::number_at;
use super::rings::transmitted;
use super::Open;
use crate::link::fault::{planted, unless, Fault};
use crate::link::refusal::{refuse, Refusal};
use crate::link::ring::Ring;

/// What the partner is told of, once every check but the ring's has passed.
pub trait Notice {
    fn control(&self) -> Control;

    /// Makes all changes but those of the ring, and gives the place of what it
    /// writes to the blocks.
    fn take_effect(self, open: &mut Open, transmit: &mut [u8]) -> Option<Range<usize>>;

    /// Makes the changes of planted faults where the ring refuses.
    fn spoil(self, open: &mut Open, transmit: &mut [u8], refusal: Refusal);
}

/// True if the fault for this refusal by the ring is planted: the first for 10,
/// the second for 7.
pub fn spoiled(refusal: Refusal, full: Fault, bad_index: Fault) -> bool {
    planted(match refusal {
        Refusal::Full => full,
        _ => bad_index,
    })
}

impl Open {
    /// Does what a notice is about and pushes its control message, or neither:
    /// the ring is tested before anything changes. The push comes last, as the
    /// partner may read what it announces from then on.
    pub fn tell(&mut self, transmit: &mut [u8], notice: impl Notice) -> Result<Answer, Refusal> {
        if let Err(refusal) = self.check_ring(transmit) {
            notice.spoil(self, transmit, refusal);
            return Err(refusal);
        }
        let control = notice.control();
        let in_blocks = notice.take_effect(self, transmit);
        let mut answer = self.push_control(transmit, control);
        answer.given = Given::Control(control.bytes());
        answer.written.extend(in_blocks.map(transmitted));
        Ok(answer)
    }

    /// Refuses a control message that the transmit ring cannot take now.
    pub fn check_ring(&self, transmit: &mut [u8]) -> Result<(), Refusal> {
        self.full_early(Fault::FullBeforeIndex, transmit)?;
        let ring = Ring::find(&self.transmit.request, transmit)?;
        match ring.check_push(self.write_index, CONTROL) {
            Err(Refusal::BadIndex) if planted(Fault::IndexUnseen) => Ok(()),
            Err(Refusal::Full) if planted(Fault::FullUnseen) => Ok(()),
            checked => checked.map(|_| ()),
        }
    }

    /// Refuses a full ring before its turn, if that fault is planted. Nobody has
    /// checked the partner's index then, so it counts modulo the data length.
    pub fn full_early(&self, fault: Fault, transmit: &mut [u8]) -> Result<(), Refusal> {
        if !planted(fault) {
            return Ok(());
        }
        let ring = Ring::find(&self.transmit.request, transmit)?;
        let read = u32::from_le_bytes(*ring.read_index) as usize % ring.data.len();
        ring.check_space(read, self.write_index as usize, CONTROL)
    }

    /// Refuses a bad index before its turn, if that fault is planted.
    pub fn index_early(&self, fault: Fault, transmit: &mut [u8]) -> Result<(), Refusal> {
        if !planted(fault) {
            return Ok(());
        }
        let ring = Ring::find(&self.transmit.request, transmit)?;
        let checked = ring.check_push(self.write_index, CONTROL);
        refuse(checked == Err(Refusal::BadIndex), Refusal::BadIndex)
    }

    /// Pushes a control message on a ring that was tested for it.
    fn push_control(&mut self, transmit: &mut [u8], control: Control) -> Answer {
        let unpushed = match control.kind {
            ControlKind::Data => Fault::SendUnpushed,
            ControlKind::ReleaseData => Fault::DoneUnpushed,
            ControlKind::Bound => Fault::BindingUnpushed,
            ControlKind::ReleaseBound => Fault::TakingUnpushed,
        };
        if planted(unpushed) {
            return Answer::default();
        }
        let mut bytes = control.bytes();
        if control.kind == ControlKind::ReleaseData && planted(Fault::DonePushesOne) {
            bytes[1] = 1;
        }
        let index = self.write_index;
        let index_place = self.transmit.write_index_place();
        let in_memory = number_at(transmit, index_place.clone());

        let mut ring = Ring::find(&self.transmit.request, transmit).expect("a tested ring");
        let moved = ring.put(index as usize, &bytes);
        let answer = self.pushed(index, moved);

        if planted(Fault::ToldUnwritten) {
            transmit[index_place].copy_from_slice(&in_memory.to_le_bytes());
        }
        self.write_index = unless(Fault::ToldKeepsOwnIndex, self.write_index, index);
        if planted(Fault::ToldTwice) {
            // Where the ring is full now, once has to do.
            let _ = self.push(transmit, &bytes);
        }
        answer
    }
}
