//! A plain unit: two regions that are ring and nothing else, and packets that
//! hold the data itself.
//!
//! It keeps nothing between calls. A caller hands in its own index, and every
//! call checks the numbers of the region that it is lent.

mod receive;
mod region;

pub use receive::receive;
pub use region::{Plain, LEAST_DATA};

use crate::link::fault::{planted, unless, Fault};
use crate::link::layout::{apart, Ringed};
use crate::link::outcome::Outcome;
use crate::link::refusal::{refuse, Refusal};
use crate::link::ring::{self, START_CONTENT};

/// What a unit is opened with.
#[derive(Clone, Copy)]
pub struct Opening {
    pub transmit_begin: u32,
    pub transmit_end: u32,
    pub receive_begin: u32,
    pub receive_end: u32,
    pub alignment: u32,
}

impl Opening {
    pub fn transmit(&self) -> Plain {
        Plain {
            begin: self.transmit_begin,
            end: self.transmit_end,
            alignment: self.alignment,
        }
    }

    pub fn receive(&self) -> Plain {
        Plain {
            begin: self.receive_begin,
            end: self.receive_end,
            alignment: self.alignment,
        }
    }
}

/// Checks both regions, the transmit region first, and then that they share no
/// byte.
pub fn open(opening: &Opening) -> Result<(), Refusal> {
    let [transmit, receive] = [opening.transmit(), opening.receive()];
    if planted(Fault::UnitReceiveFirst) {
        receive.ring_place()?;
    }
    transmit.ring_place()?;
    if planted(Fault::OverlapBeforeReceive) {
        check_apart(&transmit, &receive)?;
    }
    receive.ring_place()?;
    check_apart(&transmit, &receive)
}

/// They may touch.
fn check_apart(transmit: &Plain, receive: &Plain) -> Result<(), Refusal> {
    let [one, other] = [transmit, receive].map(|region| {
        let raw = region.begin..region.end;
        let raw = unless(Fault::UnitRoundedOverlap, raw, region.aligned());
        let wrong = raw.start..raw.end.saturating_add(1);
        unless(Fault::UnitTouchingRefused, raw, wrong)
    });
    let overlap = !apart(&one, &other);
    let overlap = unless(Fault::OneSidedOverlap, overlap, one.contains(&other.start));
    refuse(overlap && !planted(Fault::OverlapUnseen), Refusal::Overlap)
}

/// Empties the ring and puts the start content on it.
pub fn start(region: &Plain, bytes: &mut [u8]) -> Outcome {
    let bytes = lent(region, bytes);
    Outcome::of(
        0,
        if planted(Fault::StartIsPush) {
            ring::push(region, 0, bytes, &START_CONTENT)
        } else {
            ring::start(region, bytes)
        },
    )
}

/// Puts a packet with this content on the ring, at the writer's index.
pub fn push(region: &Plain, own_index: u32, bytes: &mut [u8], content: &[u8]) -> Outcome {
    let pushed = ring::push(region, own_index, lent(region, bytes), content);
    let kept = unless(Fault::RefusedIndexZero, own_index, 0);
    Outcome::of(kept, pushed)
}

/// All that is lent; a planted fault takes the region out of a longer slice.
fn lent<'a>(region: &Plain, bytes: &'a mut [u8]) -> &'a mut [u8] {
    let region_length = region.end.saturating_sub(region.begin) as usize;
    let length = bytes.len();
    &mut bytes[..unless(Fault::LongerLent, length, length.min(region_length))]
}
