//! Endpoints and their messages: registered, sent, seen, and given back.

use super::{names, Message, Pair, Side};
use crate::link::end::{Given, Slice, BOUND, MOST_ENDPOINTS, RELEASE_BOUND};
use crate::link::script::Record;

pub fn register(pair: &mut Pair, side: usize) -> bool {
    let caller = &pair.sides[side];
    let number = caller.registered;
    // An initiator's binding is pushed at once.
    let too_early = caller.state().initiator && !caller.bonded;
    if number == MOST_ENDPOINTS || too_early || !pair.random.one_in(4) {
        return false;
    }
    // The two sides use the same names, the second in another order. Long
    // names come last: one that never fits keeps those behind it out.
    let number = if side == 0 { number } else { number ^ 1 };
    let name = names::numbered(number as u64 * names::NAMES / MOST_ENDPOINTS as u64);
    let free = pair.sides[side].free();
    let outcome = pair.pushing_call(side, Record::Register(&name), &[23, 24]);
    if outcome.number != 0 {
        return false;
    }
    let caller = &mut pair.sides[side];
    caller.registered += 1;
    match outcome.answer.given {
        Given::Control([BOUND, address, _]) => {
            let blocks = free.saturating_sub(caller.free());
            caller.announced.insert(address, blocks);
        }
        Given::Control([RELEASE_BOUND, address, _]) => caller.bound.push(address),
        _ => {}
    }
    true
}

pub fn reserve(pair: &mut Pair, side: usize) -> bool {
    let open = pair.sides[side].state();
    let region = &open.transmit;
    let free = region.free(&open.outgoing);
    let all_free = free == region.block_count();
    let block_size = i64::from(region.layout.block_size);
    let all = block_size * i64::from(region.block_count());
    if pair.hopeless(free == 0) {
        return false;
    }
    let k = match pair.random.below(16) {
        0..=3 if all_free => all - 4,
        0..=7 => pair.random.between(0, block_size),
        8..=11 => block_size * pair.random.between(1, 3) - 4 + pair.random.between(0, 1),
        12 => all - 4,
        13 => all,
        _ => pair.random.between(0, all),
    };
    let k = k.max(0) as u32;
    let outcome = pair.call(side, Record::Reserve { k }, &[23, 24]);
    if let Given::Run { start, .. } = outcome.answer.given {
        pair.sides[side].reserved.push(start);
    }
    outcome.number == 0
}

pub fn give_up(pair: &mut Pair, side: usize) -> bool {
    let Some(start) = pair.random.take(&mut pair.sides[side].reserved) else {
        return false;
    };
    pair.call(side, Record::Drop { start }, &[]);
    true
}

/// Fills a room and sends it. If the ring is full, it stays reserved.
pub fn use_room(pair: &mut Pair, side: usize) -> bool {
    let Side {
        reserved, bound, ..
    } = &pair.sides[side];
    if reserved.is_empty() || bound.is_empty() {
        return false;
    }
    let start = pair.random.pick(reserved);
    let address = bound_address(pair, side);
    let content = fill_room(pair, side, start);
    let record = Record::Send {
        start,
        address: address.into(),
        k: content.len() as u32,
    };
    if pair.pushing_call(side, record, &[]).number != 0 {
        return false;
    }
    let caller = &mut pair.sides[side];
    caller.reserved.retain(|&reserved| reserved != start);
    caller.sent.insert(start, Message { address, content });
    let early = caller.announced.contains_key(&address);
    pair.overtaken.sent += u64::from(early);
    true
}

/// One of the addresses that are bound. One that data alone has bound is
/// preferred: it is so for a short time.
fn bound_address(pair: &mut Pair, side: usize) -> u8 {
    let Side {
        bound, announced, ..
    } = &pair.sides[side];
    let any = pair.random.pick(bound);
    let early = bound.iter().find(|address| announced.contains_key(address));
    match early {
        Some(&early) if pair.random.one_in(2) => early,
        _ => any,
    }
}

/// Fills a part of a room, which becomes the message's content.
fn fill_room(pair: &mut Pair, side: usize, start: u32) -> Vec<u8> {
    let place = pair.call(side, Record::Room { start }, &[]).answer.place;
    let k = match pair.random.below(4) {
        0 => place.len(),
        1 => pair.random.below(place.len().min(40) as u64 + 1) as usize,
        _ => pair.random.below(place.len() as u64 + 1) as usize,
    };
    // Long contents are filled in part, for the sake of time.
    let filled = k.min(256);
    let bytes = pair.random.bytes(filled);
    pair.sides[side]
        .session
        .write(Slice::Transmit, place.start, &bytes);
    pair.mirror(side, Slice::Transmit, place.start..place.start + filled);
    pair.sides[side].session.transmit[place.start..place.start + k].to_vec()
}

pub fn view(pair: &mut Pair, side: usize) -> bool {
    let start = pick_held(pair, side);
    if let Some(start) = start {
        check_view(pair, side, start);
    }
    start.is_some()
}

/// What is seen is what the other side put in the room.
fn check_view(pair: &mut Pair, side: usize, start: u32) {
    let place = pair.call(side, Record::View { start }, &[]).answer.place;
    let seen = pair.sides[side].session.receive.get(place);
    let sent = pair.sides[1 - side].sent.get(&start);
    if sent.map(|message| &message.content[..]) != seen {
        pair.complain(format!("start {start} is not seen as it was sent"));
    }
}

pub fn done(pair: &mut Pair, side: usize) -> bool {
    let Some(start) = pick_held(pair, side) else {
        return false;
    };
    check_view(pair, side, start);
    let done = pair.pushing_call(side, Record::Done { start }, &[]).number == 0;
    if done {
        pair.sides[side].held.retain(|&held| held != start);
    }
    done
}

fn pick_held(pair: &mut Pair, side: usize) -> Option<u32> {
    let held = &pair.sides[side].held;
    (!held.is_empty()).then(|| pair.random.pick(held))
}

pub fn question(pair: &mut Pair, side: usize) -> bool {
    if !pair.random.one_in(3) {
        return false;
    }
    let caller = &pair.sides[side];
    let [transmit, receive] = [&caller.state().transmit, &caller.state().receive];
    let record = match (caller.reserved.last(), caller.held.last()) {
        (Some(&start), _) => Record::RoomQuestion {
            start,
            length: transmit.length() as u32,
        },
        (None, Some(&start)) => Record::ViewQuestion {
            start,
            length: receive.length() as u32,
        },
        (None, None) => return false,
    };
    pair.call(side, record, &[]);
    true
}
