//! Calls that deserve refusals: every cause, alone and with others. The check
//! that comes first says which refusal it must be.

use std::mem::swap;
use std::ops::Range;

use super::calls::{Call, Calls};
use super::inputs::{answer_length, buffer_length, multiple, Place};
use super::start::START_LENGTH;
use crate::compare::layout::inputs::{corner, LAST};
use crate::compare::random::{Pool, Random};
use crate::compare::twin::Twin;
use crate::link::layout::{ring_minimum, Request, Ringed, ALIGNMENTS, LARGEST_REGION, MOST_BLOCKS};
use crate::link::outcome::{Outcome, ANSWER};
use crate::link::ring::{past, Ring, LONGEST_CONTENT, UNIT};

/// Brings one cause of refusal into a call.
pub type Cause<R = Request> = fn(&mut Plan<R>, &mut Random);

/// Causes and their refusals, in the order of a call's checks.
type Causes<R> = [(u32, Cause<R>)];

const START_CAUSES: [(u32, Cause); 5] = [
    (1, bad_alignment),
    (2, bad_block_count),
    (3, bad_bounds),
    (4, too_small),
    (6, wrong_length),
];

const PUSH_CAUSES: [(u32, Cause); 8] = [
    (1, bad_alignment),
    (2, bad_block_count),
    (3, bad_bounds),
    (4, too_small),
    (6, wrong_region),
    (11, too_long),
    (7, bad_index),
    (10, full),
];

const PULL_CAUSES: [(u32, Cause); 8] = [
    (1, bad_alignment),
    (2, bad_block_count),
    (3, bad_bounds),
    (4, too_small),
    (6, wrong_region),
    (7, bad_index),
    (8, empty),
    (9, broken_packet),
];

/// Causes chosen out of a call's list: bit 0 is the first of them.
pub type Choice = u32;

/// None of the causes of a push or a pull, and any others up to all.
pub const CHOICES: Range<Choice> = 0..1 << PUSH_CAUSES.len();

/// The same of a start.
pub const START_CHOICES: Range<Choice> = 0..1 << START_CAUSES.len();

/// How a call is to be asked.
#[derive(Clone, Copy)]
pub struct Asked {
    pub choice: Choice,
    pub answer_length: usize,
}

impl Asked {
    /// With an answer of any length.
    pub fn any(random: &mut Random, choice: Choice) -> Self {
        Asked {
            choice,
            answer_length: answer_length(random, ANSWER),
        }
    }
}

/// A start with the chosen causes.
pub fn start(calls: &mut Calls, random: &mut Random, pool: &Pool, place: Place, asked: Asked) {
    let mut plan = Plan::to_start(place);
    let call = plan.spoil(&START_CAUSES, asked, random);
    let mut region = plan.region(random, pool, |_| {});
    calls.start(&call, &mut region);
}

/// A push with the chosen causes, on a ring of less than 65,536 data bytes.
pub fn push(calls: &mut Calls, random: &mut Random, pool: &Pool, place: Place, asked: Asked) {
    let mut plan = Plan::to_push(random, place);
    let call = plan.spoil(&PUSH_CAUSES, asked, random);
    let mut region = plan.region_to_push(random, pool);
    let content = pool.slice(random, plan.content_length);
    calls.push(&call, &mut region, content);
}

/// A pull with the chosen causes.
pub fn pull(calls: &mut Calls, random: &mut Random, pool: &Pool, place: Place, asked: Asked) {
    let mut plan = Plan::to_pull(random, place);
    let call = plan.spoil(&PULL_CAUSES, asked, random);
    let mut region = plan.region_to_pull(random, pool);
    let length = buffer_length(random, place.data_length);
    let mut buffer = Twin::new(pool.slice(random, length));
    calls.pull(&call, &mut region, &mut buffer);
}

/// The most, half of the time.
fn up_to(random: &mut Random, most: usize) -> usize {
    if random.one_in(2) {
        most
    } else {
        random.below(most as u64) as usize
    }
}

/// The numbers of a region, to be spoiled.
pub trait Spoils: Ringed + Copy {
    /// Begin, end and alignment.
    fn numbers(&mut self) -> [&mut u32; 3];

    /// Every raw length below this is too small.
    fn least_length(&self) -> i64;
}

impl Spoils for Request {
    fn numbers(&mut self) -> [&mut u32; 3] {
        [&mut self.begin, &mut self.end, &mut self.alignment]
    }

    /// With space for the ring and for the least blocks beside it.
    fn least_length(&self) -> i64 {
        let [blocks, others, a] =
            [self.local_blocks, self.remote_blocks, self.alignment].map(i64::from);
        ring_minimum(blocks, others, a) + blocks * a
    }
}

/// A call to be made, and what it is about.
pub struct Plan<R = Request> {
    /// The ring, whatever the caller says of it.
    place: Place<R>,
    /// Where the packet begins.
    start: u32,
    partner_index: u32,
    /// Bytes between the two indexes.
    used: usize,
    /// Bytes of the content to push, or of the one the ring offers.
    pub content_length: usize,
    // What the caller hands over.
    request: R,
    own_index: u32,
    lent_length: usize,
    /// Only a call that takes contents whole asks for it.
    pub buffer_length: usize,
}

impl<R: Spoils> Plan<R> {
    /// A start is handed no index, and is to be at 0.
    pub fn to_start(place: Place<R>) -> Self {
        let mut plan = Plan::new(place, 0, 0, 0);
        plan.content_length = START_LENGTH;
        plan
    }

    /// A push of what fits.
    pub fn to_push(random: &mut Random, place: Place<R>) -> Self {
        let used = multiple(random, place.data_length - 2 * UNIT);
        let write = place.index(random);
        let read = past(write as usize, place.data_length - used, place.data_length);
        let mut plan = Plan::new(place, write, read, used);
        plan.content_length = up_to(random, plan.longest_to_push());
        plan
    }

    /// A pull of a whole packet.
    pub fn to_pull(random: &mut Random, place: Place<R>) -> Self {
        let unread = UNIT + multiple(random, place.data_length - 2 * UNIT);
        let read = place.index(random);
        let write = past(read as usize, unread, place.data_length);
        let mut plan = Plan::new(place, read, write, unread);
        plan.content_length = up_to(random, plan.longest_to_pull());
        plan
    }

    fn new(place: Place<R>, start: u32, partner_index: u32, used: usize) -> Self {
        Plan {
            place,
            start,
            partner_index,
            used,
            content_length: 0,
            request: place.request,
            own_index: start,
            lent_length: place.length(),
            buffer_length: 0,
        }
    }

    /// A packet has 4 bytes more, and 4 is the least that must stay free.
    fn longest_to_push(&self) -> usize {
        self.place.data_length - 8 - self.used
    }

    fn longest_to_pull(&self) -> usize {
        self.used - 4
    }

    /// Brings the chosen causes in, and states what must come of the call.
    pub fn spoil(&mut self, causes: &Causes<R>, asked: Asked, random: &mut Random) -> Call<R> {
        // Backwards: of two causes in one number, that of the first check has
        // the last word, and so has its refusal.
        let mut refusal = None;
        for (bit, (number, cause)) in causes.iter().enumerate().rev() {
            if asked.choice >> bit & 1 == 1 {
                cause(self, random);
                refusal = Some(*number);
            }
        }
        let stated = match refusal {
            Some(9) => Outcome::broken(self.partner_index, self.used),
            Some(number) => Outcome::refused(number, self.own_index),
            None => Outcome::accepted(self.content_length, self.start, self.place.data_length),
        };
        Call {
            request: self.request,
            own_index: self.own_index,
            answer_length: asked.answer_length,
            stated: Some(stated),
        }
    }

    /// The own index in it is stale, to mislead whoever reads it.
    pub fn region_to_push(&self, random: &mut Random, pool: &Pool) -> Twin<u8> {
        let stale = self.place.index(random);
        self.region(random, pool, |ring| {
            *ring.read_index = self.partner_index.to_le_bytes();
            *ring.write_index = stale.to_le_bytes();
        })
    }

    /// The own index is stale here, too.
    pub fn region_to_pull(&self, random: &mut Random, pool: &Pool) -> Twin<u8> {
        let stale = self.place.index(random);
        self.region(random, pool, |ring| {
            *ring.read_index = stale.to_le_bytes();
            *ring.write_index = self.partner_index.to_le_bytes();
            let length = (self.content_length as u16).to_be_bytes();
            ring.data[self.start as usize..][..length.len()].copy_from_slice(&length);
        })
    }

    /// Random bytes, but for what is set in the ring.
    pub fn region(&self, random: &mut Random, pool: &Pool, set: impl FnOnce(Ring)) -> Twin<u8> {
        let mut bytes = pool.slice(random, self.place.length()).to_vec();
        set(self.place.ring(&mut bytes));
        bytes.resize(self.lent_length, 0);
        Twin::new(&bytes)
    }
}

pub fn bad_alignment<R: Spoils>(plan: &mut Plan<R>, random: &mut Random) {
    let [_, _, alignment] = plan.request.numbers();
    *alignment = corner_outside(random, |number| ALIGNMENTS.contains(&number));
}

fn bad_block_count(plan: &mut Plan, random: &mut Random) {
    let count = corner_outside(random, |number| (1..=MOST_BLOCKS).contains(&number));
    let both = random.one_in(4);
    let local = random.one_in(2);
    if both || local {
        plan.request.local_blocks = count;
    }
    if both || !local {
        plan.request.remote_blocks = count;
    }
}

fn corner_outside(random: &mut Random, good: impl Fn(u32) -> bool) -> u32 {
    loop {
        let number = corner(random);
        if !good(number) {
            return number;
        }
    }
}

pub fn bad_bounds<R: Spoils>(plan: &mut Plan<R>, random: &mut Random) {
    let [begin, end, _] = plan.request.numbers();
    match random.below(3) {
        0 => *end = *begin,
        1 => swap(begin, end),
        _ => {
            let length = LARGEST_REGION + random.between(1, 9);
            let first = random.between(0, LAST - length);
            *begin = first as u32;
            *end = (first + length) as u32;
        }
    }
}

pub fn too_small<R: Spoils>(plan: &mut Plan<R>, random: &mut Random) {
    let length = random.between(1, plan.request.least_length() - 1);
    let [begin, end, _] = plan.request.numbers();
    let cut = *end - *begin - length as u32;
    *end -= cut;
    // A slice of the wrong length stays one.
    plan.lent_length = plan.lent_length.saturating_sub(cut as usize);
}

pub fn wrong_region<R: Spoils>(plan: &mut Plan<R>, random: &mut Random) {
    if random.one_in(2) {
        plan.own_index = plan.place.bad_index(random);
    } else {
        wrong_length(plan, random);
    }
}

pub fn wrong_length<R: Spoils>(plan: &mut Plan<R>, random: &mut Random) {
    let length = plan.lent_length;
    plan.lent_length = random.pick(&[0, 1, length - 1, length + 1, 2 * length]);
}

pub fn too_long<R: Spoils>(plan: &mut Plan<R>, random: &mut Random) {
    plan.content_length = LONGEST_CONTENT + random.pick(&[1, 2, 3, 4, 5, 65_536, 65_537]);
}

pub fn bad_index<R: Spoils>(plan: &mut Plan<R>, random: &mut Random) {
    plan.partner_index = plan.place.bad_index(random);
}

pub fn full<R: Spoils>(plan: &mut Plan<R>, random: &mut Random) {
    plan.content_length = longer_than(random, plan.longest_to_push());
}

pub fn empty<R: Spoils>(plan: &mut Plan<R>, _: &mut Random) {
    plan.partner_index = plan.start;
}

pub fn broken_packet<R: Spoils>(plan: &mut Plan<R>, random: &mut Random) {
    plan.content_length = longer_than(random, plan.longest_to_pull());
}

/// A length that a content can have, though more than fits. Near the longest
/// one, the length of its packet has over 16 bits.
pub fn longer_than(random: &mut Random, longest: usize) -> usize {
    let length = match random.below(4) {
        0 => longest + 1,
        1 => longest + random.between(1, 9) as usize,
        2 => LONGEST_CONTENT - random.below(4) as usize,
        _ => random.between(longest as i64 + 1, LONGEST_CONTENT as i64) as usize,
    };
    length.clamp(longest + 1, LONGEST_CONTENT)
}
