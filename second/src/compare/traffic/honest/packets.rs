//! Control messages on their way: pushed, pulled, and handed over to the end.

use super::{Pair, BUFFER};
use crate::link::end::{Control, ControlKind, Given, Outcome, CONTROL};
use crate::link::refusal::Refusal;
use crate::link::ring::is_start;
use crate::link::script::Record;

pub fn pull(pair: &mut Pair, side: usize) -> bool {
    if pair.hopeless(pair.sides[1 - side].on_ring == 0) {
        return false;
    }
    let buffer_length = BUFFER as u16;
    let outcome = pair.call(side, Record::Pull { buffer_length }, &[8]);
    if outcome.number != 0 {
        return false;
    }
    pair.sides[1 - side].on_ring -= 1;
    let Given::Length(length) = outcome.answer.given else {
        pair.complain("a pull without a length".to_string());
        return true;
    };
    let caller = &mut pair.sides[side];
    let content = caller.session.buffer[..BUFFER.min(length as usize)].to_vec();
    if caller.bonded {
        caller.pulled.push(content);
    } else {
        caller.bonded = true;
        if !is_start(&content) {
            pair.complain(format!("the first content is {content:02x?}"));
        }
    }
    true
}

/// Hands over something that was pulled.
pub fn arrival(pair: &mut Pair, side: usize) -> bool {
    let Some(content) = pair.random.take(&mut pair.sides[side].pulled) else {
        return false;
    };
    let control = match Control::read(&content) {
        Ok(control) if content.len() == CONTROL => control,
        Err(Refusal::UnknownKind) if pair.crowded => {
            pair.call(side, Record::Arrival(&content), &[13]);
            return true;
        }
        _ => {
            pair.complain(format!("{content:02x?} was pulled"));
            return true;
        }
    };
    let free = pair.sides[side].free();
    let outcome = pair.call(side, Record::Arrival(&content), &[]);
    let freed = pair.sides[side].free().saturating_sub(free);
    arrived(pair, side, control, &outcome, freed);
    true
}

/// What comes of an arrival by which so many transmit blocks were freed.
fn arrived(pair: &mut Pair, side: usize, control: Control, outcome: &Outcome, freed: u32) {
    let start = control.start();
    let caller = &mut pair.sides[side];
    match control.kind {
        ControlKind::Data => {
            caller.held.push(start);
            check_arrived(pair, side, outcome);
            if freed > 0 {
                pair.complain(format!("data freed {freed} blocks"));
            }
            bound_by_data(pair, side, control.address);
        }
        ControlKind::ReleaseData => {
            if caller.sent.remove(&start).is_none() {
                pair.complain(format!("a release of {start}, where nothing was sent"));
            }
        }
        ControlKind::Bound => {
            if let Given::Control(reply) = outcome.answer.given {
                caller.bound.push(control.address);
                caller.replies.push(reply);
            }
        }
        ControlKind::ReleaseBound => released(pair, side, control.address, freed),
    }
}

/// If data came before the release of the binding, its address is known to be
/// bound by it.
fn bound_by_data(pair: &mut Pair, side: usize, address: u8) {
    let caller = &mut pair.sides[side];
    if caller.bound.contains(&address) {
        return;
    }
    caller.bound.push(address);
    pair.overtaken.bound += 1;
    if !pair.sides[side].announced.contains_key(&address) {
        pair.complain(format!("data for {address}, which was never announced"));
    }
}

/// The blocks of a binding are free when it is released, whether data came
/// before or not.
fn released(pair: &mut Pair, side: usize, address: u8, freed: u32) {
    let caller = &mut pair.sides[side];
    if caller.bound.contains(&address) {
        pair.overtaken.released += 1;
    } else {
        caller.bound.push(address);
    }
    let blocks = caller.announced.remove(&address);
    if blocks != Some(freed) {
        pair.complain(format!(
            "{freed} blocks are free with the binding of {address}, which took {blocks:?}"
        ));
    }
}

/// What arrived is what the other side sent.
fn check_arrived(pair: &mut Pair, side: usize, outcome: &Outcome) {
    let Given::Delivery { address, start, k } = outcome.answer.given else {
        return pair.complain("data without a delivery".to_string());
    };
    let sent = pair.sides[1 - side].sent.get(&start);
    let as_sent =
        sent.is_some_and(|message| message.address == address && message.content.len() as u32 == k);
    if !as_sent {
        pair.complain(format!("start {start} arrived, address {address}, K {k}"));
    }
}

/// Pushes the reply to a binding that has arrived. The ring has space for all
/// control messages that there can be at a time, so it is refused in a crowd
/// alone, and waits.
pub fn reply(pair: &mut Pair, side: usize) -> bool {
    let Some(reply) = pair.random.take(&mut pair.sides[side].replies) else {
        return false;
    };
    let pushed = pair.pushing_call(side, Record::Push(&reply), &[]).number == 0;
    if !pushed {
        pair.sides[side].replies.push(reply);
    }
    pushed
}

/// Pushes a message of unknown kind. Nobody sends before its partner is there.
pub fn crowd(pair: &mut Pair, side: usize) -> bool {
    if !pair.crowded || !pair.sides[side].bonded {
        return false;
    }
    let length = pair.random.between(1, 12) as usize;
    let mut content = pair.random.bytes(length);
    content[0] = pair.random.between(4, 255) as u8;
    pair.pushing_call(side, Record::Push(&content), &[]).number == 0
}
