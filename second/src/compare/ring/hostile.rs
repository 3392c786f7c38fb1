//! Calls on memory and with numbers that nobody vouches for.

use super::calls::{Call, Calls};
use super::inputs::{answer_length, buffer_length, content_length, Place, SMALL_REGION};
use crate::compare::layout::inputs::{corner, MIXTURES};
use crate::compare::random::{Pool, Random};
use crate::compare::twin::Twin;
use crate::link::layout::{Request, Ringed, LARGEST_REGION};
use crate::link::outcome::ANSWER;

/// A partner that writes what it likes to the region between two calls.
pub fn hostile_partner(calls: &mut Calls, random: &mut Random, pool: &Pool, share: u64) {
    const CALLS: u64 = 40;
    let mut left = share;
    while left > 0 {
        let place = Place::any(random, SMALL_REGION);
        let mut region = Twin::new(pool.slice(random, place.length()));
        let calls_here = left.min(CALLS);
        left -= calls_here;
        for _ in 0..calls_here {
            hostile_call(calls, random, pool, place, &mut region);
        }
    }
}

/// A call after the partner, or whoever else, has written to the ring.
fn hostile_call(
    calls: &mut Calls,
    random: &mut Random,
    pool: &Pool,
    place: Place,
    region: &mut Twin<u8>,
) {
    scribble(random, pool, place, region);
    let indexes = Indexes::any(random, place);
    let call = Call {
        request: place.request,
        own_index: indexes.own,
        answer_length: answer_length(random, ANSWER),
        stated: None,
    };
    if random.one_in(2) {
        indexes.before_push(place, region);
        let length = content_length(random, indexes.space(&place));
        calls.push(&call, region, pool.slice(random, length));
    } else {
        let length = hostile_length(random, indexes.ahead(&place));
        indexes.before_pull(place, region, length);
        let length = buffer_length(random, place.data_length);
        let mut buffer = Twin::new(pool.slice(random, length));
        calls.pull(&call, region, &mut buffer);
    }
}

/// Now and then all data are other bytes.
pub fn scribble<R: Ringed>(
    random: &mut Random,
    pool: &Pool,
    place: Place<R>,
    region: &mut Twin<u8>,
) {
    if random.one_in(8) {
        let bytes = pool.slice(random, place.data_length);
        for region in region.lend() {
            place.ring(region).data.copy_from_slice(bytes);
        }
    }
}

/// The caller's index, and the two in memory.
pub struct Indexes {
    pub own: u32,
    partner: u32,
    /// Nobody reads the own index in memory, so it may mislead.
    stale: u32,
}

impl Indexes {
    pub fn any<R: Ringed + Copy>(random: &mut Random, place: Place<R>) -> Self {
        let own = if random.one_in(16) {
            place.bad_index(random)
        } else {
            place.index(random)
        };
        Indexes {
            own,
            partner: hostile_index(random, place, own),
            stale: hostile_index(random, place, own),
        }
    }

    /// Bytes from the own index on to the partner's, for lengths near a limit;
    /// of bad indexes any number will do.
    pub fn ahead<R>(&self, place: &Place<R>) -> usize {
        let ahead = i64::from(self.partner) - i64::from(self.own);
        ahead.rem_euclid(place.data_length as i64) as usize
    }

    /// The longest packet that a push can put there.
    pub fn space<R>(&self, place: &Place<R>) -> usize {
        match self.ahead(place) {
            0 => place.data_length - 1,
            ahead => ahead - 1,
        }
    }

    pub fn before_push<R: Ringed>(&self, place: Place<R>, region: &mut Twin<u8>) {
        for region in region.lend() {
            let ring = place.ring(region);
            *ring.read_index = self.partner.to_le_bytes();
            *ring.write_index = self.stale.to_le_bytes();
        }
    }

    /// At the own index there is a packet that claims this length.
    pub fn before_pull<R: Ringed>(&self, place: Place<R>, region: &mut Twin<u8>, length: u16) {
        for region in region.lend() {
            let ring = place.ring(region);
            *ring.read_index = self.stale.to_le_bytes();
            *ring.write_index = self.partner.to_le_bytes();
            let packet = ring.data.iter_mut().skip(self.own as usize);
            for (place, byte) in packet.zip(length.to_be_bytes()) {
                *place = byte;
            }
        }
    }
}

/// An index that a hostile partner writes.
pub fn hostile_index<R: Ringed>(random: &mut Random, place: Place<R>, own_index: u32) -> u32 {
    let data_length = place.data_length as i64;
    match random.below(8) {
        0..=2 => place.index(random),
        3 | 4 => {
            let near = i64::from(own_index) + 4 * random.between(-3, 3);
            near.rem_euclid(data_length) as u32
        }
        5 => (data_length + random.between(-8, 8)) as u32,
        _ => place.bad_index(random),
    }
}

/// The length that a packet claims, where `unread` bytes are unread.
pub fn hostile_length(random: &mut Random, unread: usize) -> u16 {
    match random.below(4) {
        0 | 1 => (unread as i64 + random.between(-12, 4)).clamp(0, 65_535) as u16,
        2 => random.pick(&[
            0, 1, 3, 4, 0xFF, 0x100, 0xFFF8, 0xFFF9, 0xFFFC, 0xFFFD, 0xFFFF,
        ]),
        _ => random.any() as u16,
    }
}

/// Opening numbers as the layout comparison has them.
pub fn openings(calls: &mut Calls, random: &mut Random, pool: &Pool, share: u64) {
    for _ in 0..share {
        let (_, mixture) = random.pick(&MIXTURES);
        let request = mixture(random);
        let whole = i64::from(request.end) - i64::from(request.begin);
        // Large regions are rarely lent whole, for the sake of time.
        let most = if random.one_in(64) {
            LARGEST_REGION + 512
        } else {
            SMALL_REGION
        };
        let lent_length = if (0..=most).contains(&whole) {
            whole as usize
        } else {
            random.below(256) as usize
        };
        let mut region = Twin::new(pool.slice(random, lent_length));
        match Place::new(request) {
            Some(place) if place.length() == lent_length => {
                hostile_call(calls, random, pool, place, &mut region);
            }
            _ => refused_call(calls, random, pool, request, &mut region),
        }
    }
}

/// A call with a refused layout or a region that is not lent whole.
fn refused_call(
    calls: &mut Calls,
    random: &mut Random,
    pool: &Pool,
    request: Request,
    region: &mut Twin<u8>,
) {
    let call = Call {
        request,
        own_index: corner(random),
        answer_length: answer_length(random, ANSWER),
        stated: None,
    };
    let lent_length = region.second().len();
    if random.one_in(2) {
        let length = content_length(random, lent_length);
        calls.push(&call, region, pool.slice(random, length));
    } else {
        let length = buffer_length(random, lent_length);
        let mut buffer = Twin::new(pool.slice(random, length));
        calls.pull(&call, region, &mut buffer);
    }
}
