//! What the partner does: it writes to the common memory, and its control
//! messages arrive.

use super::arguments::{incoming, outgoing, receive, transmit};
use super::{calls, names, Lone};
use crate::compare::ring::hostile::{hostile_index, hostile_length};
use crate::compare::ring::inputs::Place;
use crate::link::end::{ControlKind, Outgoing, Slice, BOUND};
use crate::link::ring::{packet, past};
use crate::link::script::Record;

impl Lone<'_> {
    /// A binding message with a good name.
    pub fn binding(&mut self, block: u8, address: u8, name: &[u8]) {
        let content = [name, &[0]].concat();
        self.message(block, content.len() as u32, &content);
        self.arrival(&[BOUND, address, block]);
    }

    /// Puts header and content where the partner would.
    pub fn message(&mut self, block: u8, k: u32, content: &[u8]) {
        let Some(open) = self.session.state() else {
            return;
        };
        let offset = open.receive.block_offset(block.into());
        let bytes = [&k.to_le_bytes(), content].concat();
        self.session.write(Slice::Receive, offset, &bytes);
    }

    /// The partner has pulled all that was pushed.
    pub fn read_all(&mut self) {
        if let Some(open) = self.session.state() {
            self.write_read_index(open.write_index);
        }
    }

    /// Puts the partner's index on the transmit ring.
    pub fn write_read_index(&mut self, index: u32) {
        let Some(open) = self.session.state() else {
            return;
        };
        let offset = open.transmit.read_index_place().start;
        self.session
            .write(Slice::Transmit, offset, &index.to_le_bytes());
    }

    pub fn arrival(&mut self, control: &[u8]) {
        self.session.play(Record::Arrival(control));
    }

    /// A control message of known kind; further bytes do not count.
    pub fn control(&mut self, kind: ControlKind, address: u8, block: u8) {
        let mut control = vec![kind as u8, address, block];
        if self.random.one_in(4) {
            let more = self.random.between(1, 6) as usize;
            control.extend(self.random.bytes(more));
        }
        self.arrival(&control);
    }
}

/// The partner moves its index on the transmit ring, to where this end is if
/// it is a good one.
pub fn reads(lone: &mut Lone) {
    let Some(open) = lone.session.state() else {
        return;
    };
    let index = if lone.random.one_in(2) {
        open.write_index
    } else {
        hostile_index(lone.random, Place::of(&open.transmit), open.write_index)
    };
    lone.write_read_index(index);
}

/// A packet as it should be, or nearly: reserved bytes and padding are free.
pub fn packet_and_pull(lone: &mut Lone) {
    if let Some(open) = lone.session.state() {
        let length = lone.random.pick(&[0, 1, 2, 3, 3, 3, 3, 4, 5, 13, 20]);
        let mut packet = packet(&lone.random.bytes(length));
        if lone.random.one_in(2) {
            for byte in &mut packet[2..4] {
                *byte = lone.random.any() as u8;
            }
        }
        let data_length = open.receive.layout.data_length as usize;
        let write = past(open.read_index as usize, packet.len(), data_length);
        put_packet(lone, &packet, write);
    }
    calls::pull(lone);
}

pub fn bad_packet_and_pull(lone: &mut Lone) {
    if let Some(open) = lone.session.state() {
        let place = Place::of(&open.receive);
        let read = open.read_index;
        let write = hostile_index(lone.random, place, read);
        let unread = (i64::from(write) - i64::from(read)).rem_euclid(place.data_length as i64);
        let length = hostile_length(lone.random, unread as usize);
        put_packet(lone, &length.to_be_bytes(), write);
    }
    calls::pull(lone);
}

/// Puts bytes at the end's read index, and the partner's write index.
fn put_packet(lone: &mut Lone, packet: &[u8], write: u32) {
    let Some(open) = lone.session.state() else {
        return;
    };
    let places: Vec<_> = open
        .receive
        .data_places(open.read_index, packet.len())
        .collect();
    let index = open.receive.write_index_place().start;
    let mut rest = packet;
    for place in places {
        let (part, behind) = rest.split_at(place.len());
        lone.session.write(Slice::Receive, place.start, part);
        rest = behind;
    }
    lone.session
        .write(Slice::Receive, index, &write.to_le_bytes());
}

pub fn data(lone: &mut Lone) {
    let block_count = lone.block_count(receive);
    let address = lone.address() as u8;
    // From block 0 on a message can take all of them.
    let block = if lone.random.one_in(6) {
        0
    } else {
        lone.block(&[], block_count)
    };
    if !lone.random.one_in(6) {
        let behind = block_count.saturating_sub(block.into());
        let k = lone.size(receive, behind);
        lone.message(block, k, &[]);
    }
    lone.control(ControlKind::Data, address, block);
}

/// Data for an endpoint that waits, and now and then a send on it, which shows
/// whether it still does. A follower's has no address, and 0 is the one that
/// could be taken for it.
pub fn early_data(lone: &mut Lone) {
    let Some(open) = lone.session.state() else {
        return;
    };
    let waiting = open.endpoints.iter().filter(|endpoint| !endpoint.bound);
    let waiting: Vec<u8> = waiting.map(|e| e.address.unwrap_or(0)).collect();
    if waiting.is_empty() {
        return;
    }
    let block_count = open.receive.block_count();
    let block_size = open.receive.layout.block_size;
    let held = incoming(&lone.session);
    let address = lone.random.pick(&waiting);
    let (block, k) = match lone.random.below(6) {
        0 => (block_count.min(255) as u8, 0),
        1 => ((block_count - 1) as u8, block_size - 3),
        2 if !held.is_empty() => (lone.random.pick(&held) as u8, 0),
        _ => {
            let k = lone.random.below(2 * u64::from(block_size)) as u32;
            (lone.free_block(k as usize), k)
        }
    };
    lone.message(block, k, &[]);
    lone.control(ControlKind::Data, address, block);
    if lone.random.one_in(2) {
        calls::send_on(lone, address);
    }
}

pub fn release_data(lone: &mut Lone) {
    let sent = if lone.random.one_in(3) {
        outgoing(&lone.session, |_| true)
    } else {
        outgoing(&lone.session, |state| matches!(state, Outgoing::Data))
    };
    let mut block = lone.block(&sent, lone.block_count(transmit));
    // The middle of a run is not where it starts.
    if lone.random.one_in(6) {
        block = block.saturating_add(1);
    }
    let unused = lone.random.any() as u8;
    lone.control(ControlKind::ReleaseData, unused, block);
}

pub fn bound(lone: &mut Lone) {
    let block_count = lone.block_count(receive);
    let address = if lone.random.one_in(4) {
        lone.address() as u8
    } else {
        lone.random.below(40) as u8
    };
    let mut content = bound_name(lone);
    if !lone.random.one_in(12) {
        content.push(0);
    }
    let more = lone.random.pick(&[0, 0, 0, 1, 5, 40]);
    content.extend(lone.random.bytes(more));
    let block = if lone.random.one_in(2) {
        lone.free_block(content.len())
    } else {
        lone.block(&[], block_count)
    };
    let k = match lone.random.below(12) {
        0 => lone.size(receive, block_count.saturating_sub(block.into())),
        1 => content.len().saturating_sub(1 + more) as u32,
        _ => content.len() as u32,
    };
    lone.message(block, k, &content);
    lone.control(ControlKind::Bound, address, block);
}

/// A name to be bound, now and then one that an endpoint waits with.
fn bound_name(lone: &mut Lone) -> Vec<u8> {
    let waiting = lone.session.state().and_then(|open| {
        let mut endpoints = open.endpoints.iter();
        endpoints
            .find(|endpoint| !endpoint.bound)
            .map(|endpoint| endpoint.name.bytes().to_vec())
    });
    match waiting {
        Some(name) if lone.random.one_in(3) => name,
        _ if lone.random.one_in(6) => names::any(lone.random),
        _ => names::good(lone.random),
    }
}

pub fn release_bound(lone: &mut Lone) {
    let sent: Vec<(u32, u8)> = lone
        .session
        .state()
        .into_iter()
        .flat_map(|open| open.outgoing.iter())
        .filter_map(|run| match run.state {
            Outgoing::Binding { address } => Some((run.start, address)),
            Outgoing::Data | Outgoing::Reserved => None,
        })
        .collect();
    if sent.is_empty() || lone.random.one_in(3) {
        let wanted = outgoing(&lone.session, |_| true);
        let block = lone.block(&wanted, lone.block_count(transmit));
        let address = lone.address() as u8;
        lone.control(ControlKind::ReleaseBound, address, block);
        // Where it is refused, an endpoint that waits must still do so.
        if lone.random.one_in(4) {
            calls::send_on(lone, address);
        }
    } else {
        let (start, address) = lone.random.pick(&sent);
        lone.control(ControlKind::ReleaseBound, address, start as u8);
    }
}

/// Empty, short, or of a kind that nobody knows.
pub fn odd_control(lone: &mut Lone) {
    let length = lone.random.pick(&[0, 1, 1, 2, 2, 3, 3, 4, 20]);
    let mut control = lone.random.bytes(length);
    if let Some(kind) = control.first_mut() {
        *kind = match lone.random.below(4) {
            0 | 1 => lone.random.below(4) as u8,
            2 => 4 + lone.random.below(4) as u8,
            _ => *kind,
        };
    }
    lone.arrival(&control);
}

/// The partner changes the size of a message that has arrived.
pub fn change_receive_header(lone: &mut Lone) {
    let starts = incoming(&lone.session);
    if starts.is_empty() {
        return;
    }
    let start = lone.random.pick(&starts);
    let block_count = lone.block_count(receive);
    let k = lone.size(receive, block_count);
    lone.message(start as u8, k, &[]);
    if lone.random.one_in(2) {
        lone.session.play(Record::View { start });
    }
}

/// Somebody changes the size of a message that is out.
pub fn change_transmit_header(lone: &mut Lone) {
    let starts = outgoing(&lone.session, |_| true);
    let Some(open) = lone.session.state() else {
        return;
    };
    if starts.is_empty() {
        return;
    }
    let start = lone.random.pick(&starts);
    let offset = open.transmit.block_offset(start);
    let k = lone.size(transmit, 4);
    lone.session
        .write(Slice::Transmit, offset, &k.to_le_bytes());
}

/// Random bytes over a part of a region, the receive region as a rule.
pub fn scribble(lone: &mut Lone) {
    let (slice, length) = if lone.random.one_in(4) {
        (Slice::Transmit, lone.session.transmit.len())
    } else {
        (Slice::Receive, lone.session.receive.len())
    };
    let bytes_length = if lone.random.one_in(32) {
        length.min(1 << 12)
    } else {
        lone.random.between(1, 64) as usize
    };
    let offset = lone.random.below(length as u64) as usize;
    let bytes = lone.random.bytes(bytes_length);
    lone.session.write(slice, offset, &bytes);
}
