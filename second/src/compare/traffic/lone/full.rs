//! A transmit ring that is full for long, as nobody pulls what is on it: what
//! is called meanwhile, and again when the partner has read on. What the ring
//! refused is still there then, so it is tried again by itself.

use super::arguments::odd_length;
use super::{calls, names, partner, Act, Lone};
use crate::compare::ring::inputs::{multiple, Place};
use crate::link::end::{number_at, ControlKind, Incoming, CONTROL};
use crate::link::ring::{packet_length, past, LONGEST_CONTENT, UNIT};
use crate::link::script::Record;

/// What is done while the ring is full, and for a while afterwards.
const ACTS: [Act; 21] = [
    send,
    send,
    done,
    done,
    register,
    register,
    bad_index,
    wrong_lend,
    calls::send,
    calls::done,
    calls::register,
    calls::any_name,
    calls::push,
    calls::reserve,
    calls::drop_reservation,
    partner::data,
    partner::early_data,
    partner::bound,
    partner::release_data,
    partner::release_bound,
    partner::change_transmit_header,
];

/// What pushes a control message, if it can.
const TELLING_ACTS: [Act; 6] = [
    send,
    done,
    register,
    calls::send,
    calls::done,
    calls::register,
];

/// The ring is filled, stays so for some calls, and is read on.
pub fn round(lone: &mut Lone) {
    fill(lone);
    let acts = lone.random.between(6, 30);
    lone.act(&ACTS, acts);
    read_on(lone);
    let acts = lone.random.between(3, 12);
    lone.act(&ACTS, acts);
}

/// Pushes until no control message fits.
fn fill(lone: &mut Lone) {
    if !index_is_good(lone) {
        lone.read_all();
    }
    let control_packet = packet_length(CONTROL);
    loop {
        // What fits is counted in whole units.
        let space = calls::space(lone) / UNIT * UNIT;
        if space < control_packet {
            return;
        }
        let packet = if space > 10 * control_packet || lone.random.one_in(4) {
            space - lone.random.pick(&[0, 4, 8, 16]).min(space - UNIT)
        } else {
            control_packet
        };
        let padding = lone.random.below(UNIT as u64) as usize;
        let length = (packet - UNIT).saturating_sub(padding).min(LONGEST_CONTENT);
        let content = lone.random.bytes(length);
        if lone.session.play(Record::Push(&content)).number != 0 {
            return;
        }
    }
}

/// True if the partner's index on the transmit ring is in rule.
fn index_is_good(lone: &Lone) -> bool {
    lone.session.state().is_some_and(|open| {
        let index = number_at(&lone.session.transmit, open.transmit.read_index_place());
        index < open.transmit.layout.data_length && (index as usize).is_multiple_of(UNIT)
    })
}

/// The partner reads a few bytes, which may be enough for one control message
/// or for none, or all.
fn read_on(lone: &mut Lone) {
    let Some(open) = lone.session.state() else {
        return;
    };
    if !index_is_good(lone) || lone.random.one_in(2) {
        return lone.read_all();
    }
    let data_length = open.transmit.layout.data_length as usize;
    let read = number_at(&lone.session.transmit, open.transmit.read_index_place()) as usize;
    let used = (data_length + open.write_index as usize - read) % data_length;
    let bytes = multiple(lone.random, used.min(40));
    let index = past(read, bytes, data_length);
    lone.write_read_index(index);
}

/// The partner's index is out of rule for a few calls, and then as it was.
fn bad_index(lone: &mut Lone) {
    let Some(open) = lone.session.state() else {
        return;
    };
    let place = open.transmit.read_index_place();
    let data_length = open.transmit.layout.data_length;
    let ring = Place::of(&open.transmit);
    let before = number_at(&lone.session.transmit, place);
    let index = match lone.random.below(3) {
        // What a careless computation takes for the good one.
        0 => before.wrapping_add(data_length),
        1 => before.wrapping_add(lone.random.between(1, 3) as u32),
        _ => ring.bad_index(lone.random),
    };
    lone.write_read_index(index);
    let acts = lone.random.between(1, 6);
    lone.act(&TELLING_ACTS, acts);
    lone.write_read_index(before);
}

/// The transmit region is not lent whole for a few calls.
fn wrong_lend(lone: &mut Lone) {
    let [transmit, receive] = lone.whole_lengths();
    let transmit = odd_length(lone, transmit);
    lone.session.play(Record::Lend { transmit, receive });
    let acts = lone.random.between(1, 3);
    lone.act(&TELLING_ACTS, acts);
    calls::lend_whole(lone);
}

/// Sends on a bound endpoint.
fn send(lone: &mut Lone) {
    if let Some(address) = bound_address(lone) {
        calls::send_on(lone, address);
    }
}

/// Is done with a message, or receives one to be done with.
fn done(lone: &mut Lone) {
    let Some(open) = lone.session.state() else {
        return;
    };
    let held = open
        .incoming
        .starts(|state| matches!(state, Incoming::Data { .. }));
    if held.is_empty() || lone.random.one_in(8) {
        return deliver(lone);
    }
    let start = lone.random.pick(&held);
    lone.session.play(Record::Done { start });
}

/// Data arrives for a bound endpoint.
fn deliver(lone: &mut Lone) {
    if let Some(address) = bound_address(lone) {
        let block = lone.free_block(1);
        lone.message(block, 1, &[]);
        lone.control(ControlKind::Data, address, block);
    }
}

fn bound_address(lone: &mut Lone) -> Option<u8> {
    let open = lone.session.state()?;
    let bound = open.endpoints.iter().filter(|endpoint| endpoint.bound);
    let bound: Vec<u8> = bound.filter_map(|endpoint| endpoint.address).collect();
    (!bound.is_empty()).then(|| lone.random.pick(&bound))
}

/// Registers the name of a stored binding, or the first that is new, or has a
/// binding of that stored first. A follower waits with a new name.
fn register(lone: &mut Lone) {
    let Some(open) = lone.session.state() else {
        return;
    };
    let stored = open.incoming.iter().find_map(|run| match &run.state {
        Incoming::Stored { name, .. } => Some(name.bytes().to_vec()),
        Incoming::Data { .. } => None,
    });
    let endpoints = &open.endpoints;
    let is_new = |name: &Vec<u8>| endpoints.iter().all(|e| e.name.bytes() != name);
    let mut new = (0..names::NAMES).map(names::numbered).filter(is_new);
    let new = new.next().expect("more names than endpoints");
    match stored {
        Some(stored) if !lone.random.one_in(3) => {
            lone.session.play(Record::Register(&stored));
        }
        _ if lone.random.one_in(3) => {
            let block = lone.free_block(new.len() + 1);
            let address = lone.random.below(40) as u8;
            lone.binding(block, address, &new);
        }
        _ => {
            lone.session.play(Record::Register(&new));
        }
    }
}
