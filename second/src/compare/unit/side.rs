//! Who answers a call: the second implementation, or what it is compared with.

use crate::compare::proved;
use crate::compare::ring::calls::Call;
use crate::compare::Opponent;
use crate::link::fault;
use crate::link::unit::{self, Opening, Plain};

/// A call of a unit with a region.
#[derive(Clone, Copy)]
pub enum Action<'a> {
    Start,
    Push(&'a [u8]),
    Receive,
}

/// What a call is lent. Only a receive gets the buffer.
pub struct Lent<'a> {
    pub region: &'a mut [u8],
    pub buffer: &'a mut [u8],
    pub answer: &'a mut [u32],
}

#[derive(Clone, Copy)]
pub enum Side {
    Second,
    Other(Opponent),
}

impl Side {
    /// Gives the number that an opening comes to.
    pub fn open(self, opening: &Opening) -> u32 {
        match self {
            Side::Second => unit::open(opening).map_or_else(|refusal| refusal as u32, |()| 0),
            Side::Other(Opponent::Proved) => proved::unit_open(opening),
            Side::Other(Opponent::Planted(fault)) => {
                fault::with(fault, || Side::Second.open(opening))
            }
        }
    }

    /// Gives the number that a call comes to, and writes the answer.
    pub fn call(self, call: &Call<Plain>, action: Action, lent: Lent) -> u32 {
        match self {
            Side::Second => second(call, action, lent),
            Side::Other(Opponent::Proved) => proved(call, action, lent),
            Side::Other(Opponent::Planted(fault)) => {
                fault::with(fault, || second(call, action, lent))
            }
        }
    }
}

fn second(call: &Call<Plain>, action: Action, lent: Lent) -> u32 {
    let (plain, own_index) = (&call.request, call.own_index);
    let outcome = match action {
        Action::Start => unit::start(plain, lent.region),
        Action::Push(content) => unit::push(plain, own_index, lent.region, content),
        Action::Receive => unit::receive(plain, own_index, lent.region, lent.buffer),
    };
    outcome.write(lent.answer);
    outcome.refusal
}

fn proved(call: &Call<Plain>, action: Action, lent: Lent) -> u32 {
    let (plain, own_index) = (&call.request, call.own_index);
    let Lent {
        region,
        buffer,
        answer,
    } = lent;
    match action {
        Action::Start => proved::unit_start(plain, region, answer),
        Action::Push(content) => proved::unit_push(plain, own_index, region, content, answer),
        Action::Receive => proved::unit_receive(plain, own_index, region, buffer, answer),
    }
}
