//! Calls of a unit that deserve refusals: every cause, alone and with others.

use super::calls::Calls;
use super::inputs::{any_place, least_size, small_places};
use super::side::Action;
use crate::compare::random::{Pool, Random};
use crate::compare::ring::causes::{
    bad_alignment, bad_bounds, bad_index, broken_packet, empty, full, too_long, too_small,
    wrong_length, wrong_region, Asked, Cause, Choice, Plan, Spoils,
};
use crate::compare::ring::inputs::{Place, SMALL_REGION};
use crate::compare::twin::Twin;
use crate::link::outcome::ANSWER;
use crate::link::unit::Plain;

const START_CAUSES: [(u32, Cause<Plain>); 4] = [
    (1, bad_alignment),
    (3, bad_bounds),
    (4, too_small),
    (6, wrong_length),
];

const PUSH_CAUSES: [(u32, Cause<Plain>); 7] = [
    (1, bad_alignment),
    (3, bad_bounds),
    (4, too_small),
    (6, wrong_region),
    (11, too_long),
    (7, bad_index),
    (10, full),
];

const RECEIVE_CAUSES: [(u32, Cause<Plain>); 8] = [
    (1, bad_alignment),
    (3, bad_bounds),
    (4, too_small),
    (6, wrong_region),
    (7, bad_index),
    (8, empty),
    (9, broken_packet),
    (26, short_buffer),
];

/// A choice of every cause there is.
const ALL: Choice = (1 << RECEIVE_CAUSES.len()) - 1;

/// The choice of 26.
const SHORT: Choice = 1 << (RECEIVE_CAUSES.len() - 1);

impl Spoils for Plain {
    fn numbers(&mut self) -> [&mut u32; 3] {
        [&mut self.begin, &mut self.end, &mut self.alignment]
    }

    fn least_length(&self) -> i64 {
        least_size(self.alignment)
    }
}

fn short_buffer(plan: &mut Plan<Plain>, random: &mut Random) {
    let content = plan.content_length;
    let any = random.below(content as u64) as usize;
    plan.buffer_length = random.pick(&[0, content - 1, any]);
}

/// Every choice of causes in small regions of every alignment, with answers of
/// 0 to 5 elements.
pub fn every_choice(calls: &mut Calls, random: &mut Random, pool: &Pool) {
    for place in small_places() {
        for answer_length in 0..=ANSWER + 2 {
            for choice in 0..=ALL {
                let asked = Asked {
                    choice,
                    answer_length,
                };
                if choice < 1 << START_CAUSES.len() {
                    start(calls, random, pool, place, asked);
                }
                if choice < 1 << PUSH_CAUSES.len() {
                    push(calls, random, pool, place, asked);
                }
                receive(calls, random, pool, place, asked);
            }
        }
    }
}

/// Some causes, or none, in regions of many kinds.
pub fn mixed(calls: &mut Calls, random: &mut Random, pool: &Pool) {
    const BATCH: usize = 32;
    for _ in 0..BATCH {
        let place = any_place(random, SMALL_REGION);
        let few = random.any() & random.any() & random.any() & ALL;
        let asked = Asked::any(random, few);
        match random.below(8) {
            0 => start(calls, random, pool, place, asked),
            1..=3 => push(calls, random, pool, place, asked),
            _ => receive(calls, random, pool, place, asked),
        }
    }
}

fn start(calls: &mut Calls, random: &mut Random, pool: &Pool, place: Place<Plain>, asked: Asked) {
    let mut plan = Plan::to_start(place);
    let call = plan.spoil(&START_CAUSES, asked, random);
    let mut region = plan.region(random, pool, |_| {});
    calls.make(&call, Action::Start, &mut region, &mut Twin::new(&[]));
}

fn push(calls: &mut Calls, random: &mut Random, pool: &Pool, place: Place<Plain>, asked: Asked) {
    let mut plan = Plan::to_push(random, place);
    let call = plan.spoil(&PUSH_CAUSES, asked, random);
    let mut region = plan.region_to_push(random, pool);
    let content = pool.slice(random, plan.content_length);
    let action = Action::Push(content);
    calls.make(&call, action, &mut region, &mut Twin::new(&[]));
}

fn receive(calls: &mut Calls, random: &mut Random, pool: &Pool, place: Place<Plain>, asked: Asked) {
    let mut plan = Plan::to_pull(random, place);
    // No buffer is too short for a content of no bytes.
    while plan.content_length == 0 && asked.choice & SHORT != 0 {
        plan = Plan::to_pull(random, place);
    }
    let longer = random.pick(&[0, 0, 1, 2, 3, 4, 5, 40]);
    plan.buffer_length = plan.content_length + longer;
    let call = plan.spoil(&RECEIVE_CAUSES, asked, random);
    let mut region = plan.region_to_pull(random, pool);
    let mut buffer = Twin::new(pool.slice(random, plan.buffer_length));
    calls.make(&call, Action::Receive, &mut region, &mut buffer);
}
