//! Calls of a unit on memory and with numbers that nobody vouches for.

use super::calls::Calls;
use super::inputs::{any_place, buffer_length, hostile_plain};
use super::side::Action;
use crate::compare::layout::inputs::corner;
use crate::compare::random::{Pool, Random};
use crate::compare::ring::calls::Call;
use crate::compare::ring::hostile::{hostile_length, scribble, Indexes};
use crate::compare::ring::inputs::{answer_length, content_length, Place, SMALL_REGION};
use crate::compare::twin::Twin;
use crate::link::outcome::ANSWER;
use crate::link::unit::Plain;

/// A partner that writes what it likes to the region between two calls.
pub fn partner(calls: &mut Calls, random: &mut Random, pool: &Pool) {
    const BATCH: usize = 40;
    // Large enough for more unread bytes than a packet can claim.
    const LARGE_REGION: i64 = 1 << 17;
    let most = random.one_in(64).then_some(LARGE_REGION);
    let place = any_place(random, most.unwrap_or(SMALL_REGION));
    let mut region = Twin::new(pool.slice(random, place.length()));
    for _ in 0..BATCH {
        call_after_partner(calls, random, pool, place, &mut region);
    }
}

fn call_after_partner(
    calls: &mut Calls,
    random: &mut Random,
    pool: &Pool,
    place: Place<Plain>,
    region: &mut Twin<u8>,
) {
    scribble(random, pool, place, region);
    let indexes = Indexes::any(random, place);
    let call = call(random, place.request, indexes.own);
    match random.below(8) {
        0 => calls.make(&call, Action::Start, region, &mut Twin::new(&[])),
        1..=3 => {
            indexes.before_push(place, region);
            let length = content_length(random, indexes.space(&place));
            let action = Action::Push(pool.slice(random, length));
            calls.make(&call, action, region, &mut Twin::new(&[]));
        }
        _ => {
            let claimed = hostile_length(random, indexes.ahead(&place));
            indexes.before_pull(place, region, claimed);
            receive(calls, random, pool, &call, claimed.into(), region);
        }
    }
}

/// A receive where the packet claims a content of that length.
fn receive(
    calls: &mut Calls,
    random: &mut Random,
    pool: &Pool,
    call: &Call<Plain>,
    claimed: usize,
    region: &mut Twin<u8>,
) {
    let length = buffer_length(random, claimed);
    let mut buffer = Twin::new(pool.slice(random, length));
    calls.make(call, Action::Receive, region, &mut buffer);
}

/// Regions of every kind, most of them lent whole.
pub fn any_numbers(calls: &mut Calls, random: &mut Random, pool: &Pool) {
    const BATCH: usize = 32;
    for _ in 0..BATCH {
        let plain = hostile_plain(random);
        let whole = i64::from(plain.end) - i64::from(plain.begin);
        // Large regions are not lent whole, for the sake of time.
        let lent = if (0..=SMALL_REGION).contains(&whole) && !random.one_in(8) {
            whole
        } else {
            random.between(0, 256)
        };
        let mut region = Twin::new(pool.slice(random, lent as usize));
        if let Some(place) = Place::new(plain).filter(|place| place.length() == lent as usize) {
            call_after_partner(calls, random, pool, place, &mut region);
            continue;
        }
        let own_index = corner(random);
        let call = call(random, plain, own_index);
        match random.below(3) {
            0 => calls.make(&call, Action::Start, &mut region, &mut Twin::new(&[])),
            1 => {
                let length = content_length(random, lent as usize);
                let action = Action::Push(pool.slice(random, length));
                calls.make(&call, action, &mut region, &mut Twin::new(&[]));
            }
            _ => receive(calls, random, pool, &call, 16, &mut region),
        }
    }
}

fn call(random: &mut Random, request: Plain, own_index: u32) -> Call<Plain> {
    Call {
        request,
        own_index,
        answer_length: answer_length(random, ANSWER),
        stated: None,
    }
}
