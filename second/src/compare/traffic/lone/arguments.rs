//! Arguments of calls and control messages: most make sense, some are out of the
//! way.

use super::{Lone, Session};
use crate::link::end::{Open, Outgoing, Region, LAST_ADDRESS};

impl Lone<'_> {
    pub fn is_odd(&mut self) -> bool {
        self.random.one_in(self.odd)
    }

    /// Blocks to transmit or to receive in, all of them; of a closed end any number.
    pub fn block_count(&self, region: fn(&Open) -> &Region) -> u32 {
        self.session
            .state()
            .map_or(4, |open| region(open).block_count())
    }

    /// Bytes of the transmit and of the receive region.
    pub fn whole_lengths(&self) -> [u32; 2] {
        let opening = self.session.opening();
        [opening.transmit(), opening.receive()].map(|region| region.end.wrapping_sub(region.begin))
    }

    /// A start for a call on a message, one of the wanted if there are any.
    pub fn start_of(&mut self, wanted: &[u32], block_count: u32) -> u32 {
        let usual = if wanted.is_empty() || self.random.one_in(6) {
            self.random.below(u64::from(block_count)) as u32
        } else {
            self.random.pick(wanted)
        };
        if !self.is_odd() {
            return usual;
        }
        match self.random.below(8) {
            0 => usual + 1,
            1 => usual + 256,
            2 => usual | 1 << self.random.between(8, 31),
            3 => block_count,
            4 => 256,
            5 => u32::MAX,
            6 => self.random.any(),
            _ => usual.wrapping_sub(1),
        }
    }

    /// The block number of a control message.
    pub fn block(&mut self, wanted: &[u32], block_count: u32) -> u8 {
        if self.random.one_in(12) {
            let near = i64::from(block_count) + self.random.between(-1, 1);
            return near.clamp(0, 255) as u8;
        }
        if self.random.one_in(24) {
            return self.random.any() as u8;
        }
        self.start_of(wanted, block_count) as u8
    }

    /// An address, often that of an endpoint.
    pub fn address(&mut self) -> u32 {
        let endpoints = self.session.state().map_or(&[][..], |open| &open.endpoints);
        let addresses: Vec<u8> = endpoints.iter().filter_map(|e| e.address).collect();
        let usual = if addresses.is_empty() || self.random.one_in(12) {
            self.random.below(12) as u32
        } else {
            self.random.pick(&addresses).into()
        };
        if self.random.one_in(16) {
            return u32::from(LAST_ADDRESS) + self.random.below(3) as u32;
        }
        if !self.is_odd() {
            return usual;
        }
        match self.random.below(4) {
            0 => usual + 0x100,
            1 => usual | 1 << self.random.between(8, 31),
            2 => self.random.any() & 0xFF,
            _ => self.random.any(),
        }
    }

    /// K of a message for which there are so many blocks.
    pub fn size(&mut self, region: fn(&Open) -> &Region, count: u32) -> u32 {
        let Some(open) = self.session.state() else {
            return self.random.any();
        };
        let block_size = i64::from(region(open).layout.block_size);
        let all = block_size * i64::from(count);
        let size = match self.random.below(16) {
            0..=5 => self.random.between(0, 2 * block_size),
            6..=9 => {
                let near = block_size * self.random.between(1, i64::from(count.max(1)));
                near - 4 + self.random.between(-1, 1)
            }
            10 | 11 => all - 4 + self.random.between(-2, 4),
            12 => 0,
            13 => i64::from(u32::MAX) - self.random.between(0, 8),
            14 => (1 << self.random.between(0, 31)) - self.random.between(0, 1),
            _ => i64::from(self.random.any()),
        };
        size.clamp(0, u32::MAX.into()) as u32
    }

    /// Where a message of that many bytes can arrive; 0 if it cannot.
    pub fn free_block(&self, length: usize) -> u8 {
        let free = self.session.state().and_then(|open| {
            let count = open.receive.count_for(length as u32) as u32;
            let free = open.incoming.lowest_free(count, open.receive.block_count());
            free.ok()
        });
        free.unwrap_or(0) as u8
    }
}

/// A length that is not the whole one.
pub fn odd_length(lone: &mut Lone, whole: u32) -> u32 {
    match lone.random.below(6) {
        0 => 0,
        1 => whole.wrapping_sub(1),
        2 => whole.wrapping_add(1),
        3 => u32::MAX,
        4 => whole.wrapping_add(256),
        _ => lone.random.any(),
    }
}

/// The starts of outgoing messages that are wanted.
pub fn outgoing(session: &Session, wanted: fn(&Outgoing) -> bool) -> Vec<u32> {
    let open = session.state();
    open.map_or(Vec::new(), |open| open.outgoing.starts(wanted))
}

/// The starts of incoming messages, stored bindings among them.
pub fn incoming(session: &Session) -> Vec<u32> {
    let open = session.state();
    open.map_or(Vec::new(), |open| open.incoming.starts(|_| true))
}

pub fn transmit(open: &Open) -> &Region {
    &open.transmit
}

pub fn receive(open: &Open) -> &Region {
    &open.receive
}
