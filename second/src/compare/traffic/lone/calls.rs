//! What the caller does: every call of the end, and what it lends.

use super::arguments::{incoming, odd_length, outgoing, receive, transmit};
use super::{names, Lone, HOSTILE_ACTS};
use crate::compare::ring::inputs::{buffer_length, content_length};
use crate::link::end::{number_at, Given, Outgoing, Slice};
use crate::link::ring::LONGEST_CONTENT;
use crate::link::script::Record;

pub fn start(lone: &mut Lone) {
    // More often, it would keep the ring empty.
    if lone.random.one_in(8) {
        lone.session.play(Record::Start);
    }
}

/// The longest packet that fits on the transmit ring now; of a closed end, or if
/// the partner's index is a bad one, any number.
pub fn space(lone: &Lone) -> usize {
    match lone.session.state() {
        Some(open) => {
            let region = &open.transmit;
            let read = number_at(&lone.session.transmit, region.read_index_place());
            let ahead = i64::from(read) - i64::from(open.write_index) - 1;
            ahead.rem_euclid(region.layout.data_length.into()) as usize
        }
        None => 8,
    }
}

pub fn push(lone: &mut Lone) {
    let length = content_length(lone.random, space(lone)).min(LONGEST_CONTENT);
    let content = lone.random.bytes(length);
    lone.session.play(Record::Push(&content));
}

pub fn pull(lone: &mut Lone) {
    let most = lone.session.buffer.len();
    let buffer_length = buffer_length(lone.random, most) as u16;
    lone.session.play(Record::Pull { buffer_length });
}

pub fn register(lone: &mut Lone) {
    let name = names::good(lone.random);
    lone.session.play(Record::Register(&name));
}

pub fn any_name(lone: &mut Lone) {
    let name = names::any(lone.random);
    lone.session.play(Record::Register(&name));
}

pub fn reserve(lone: &mut Lone) {
    let block_count = lone.block_count(transmit);
    let k = lone.size(transmit, block_count);
    lone.session.play(Record::Reserve { k });
}

pub fn send(lone: &mut Lone) {
    let reserved = outgoing(&lone.session, |state| matches!(state, Outgoing::Reserved));
    let start = lone.start_of(&reserved, lone.block_count(transmit));
    let address = lone.address();
    let count = lone.session.state().and_then(|open| {
        let mut runs = open.outgoing.iter();
        runs.find(|run| run.start == start).map(|run| run.count)
    });
    let k = lone.size(transmit, count.unwrap_or(1));
    lone.session.play(Record::Send { start, address, k });
}

/// Sends something, for which blocks are reserved if none are.
pub fn send_on(lone: &mut Lone, address: u8) {
    let mut reserved = outgoing(&lone.session, |state| matches!(state, Outgoing::Reserved));
    if reserved.is_empty() {
        let outcome = lone.session.play(Record::Reserve { k: 0 });
        let Given::Run { start, .. } = outcome.answer.given else {
            return;
        };
        reserved.push(start);
    }
    let start = lone.random.pick(&reserved);
    let address = address.into();
    let k = if lone.random.one_in(3) {
        lone.size(transmit, 1)
    } else {
        0
    };
    lone.session.play(Record::Send { start, address, k });
}

pub fn drop_reservation(lone: &mut Lone) {
    let wanted = outgoing(&lone.session, |_| true);
    let start = lone.start_of(&wanted, lone.block_count(transmit));
    lone.session.play(Record::Drop { start });
}

pub fn done(lone: &mut Lone) {
    let wanted = incoming(&lone.session);
    let start = lone.start_of(&wanted, lone.block_count(receive));
    lone.session.play(Record::Done { start });
}

pub fn room(lone: &mut Lone) {
    let wanted = outgoing(&lone.session, |_| true);
    let start = lone.start_of(&wanted, lone.block_count(transmit));
    let place = lone.session.play(Record::Room { start }).answer.place;
    if !place.is_empty() && lone.random.one_in(2) {
        let bytes = [lone.random.any() as u8; 3];
        let offset = place.start + lone.random.below(place.len() as u64) as usize;
        let fitting = bytes.len().min(place.end - offset);
        lone.session
            .write(Slice::Transmit, offset, &bytes[..fitting]);
    }
}

pub fn view(lone: &mut Lone) {
    let wanted = incoming(&lone.session);
    let start = lone.start_of(&wanted, lone.block_count(receive));
    lone.session.play(Record::View { start });
}

pub fn question(lone: &mut Lone) {
    let of_room = lone.random.one_in(2);
    let [transmit_length, receive_length] = lone.whole_lengths();
    let (wanted, block_count, whole) = if of_room {
        let wanted = outgoing(&lone.session, |_| true);
        (wanted, lone.block_count(transmit), transmit_length)
    } else {
        let wanted = incoming(&lone.session);
        (wanted, lone.block_count(receive), receive_length)
    };
    let start = lone.start_of(&wanted, block_count);
    let length = if lone.is_odd() {
        odd_length(lone, whole)
    } else {
        whole
    };
    lone.session.play(if of_room {
        Record::RoomQuestion { start, length }
    } else {
        Record::ViewQuestion { start, length }
    });
}

/// Lends lengths that need not be the regions'.
pub fn lend(lone: &mut Lone) {
    let [transmit, receive] = lone.whole_lengths().map(|whole| {
        if lone.random.one_in(3) {
            whole
        } else {
            odd_length(lone, whole)
        }
    });
    lone.session.play(Record::Lend { transmit, receive });
    // Long phases of refusals would show little.
    if !lone.random.one_in(4) {
        let acts = lone.random.between(1, 4);
        lone.act(&HOSTILE_ACTS, acts);
        lend_whole(lone);
    }
}

pub fn lend_whole(lone: &mut Lone) {
    let [transmit, receive] = lone.whole_lengths();
    lone.session.play(Record::Lend { transmit, receive });
}
