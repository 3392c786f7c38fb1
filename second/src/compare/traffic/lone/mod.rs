//! An end alone with a partner and a caller that may do anything: how a script
//! of it comes about.

mod arguments;
mod calls;
mod full;
mod partner;

use super::case::Case;
use super::session::Session;
use super::{names, openings};
use crate::compare::random::Random;
use crate::link::end::{Given, Opening, Slice, BOUND, HEADER, RELEASE_BOUND};
use crate::link::refusal::Refusal;
use crate::link::script::Record;

/// The most bytes that the receive region is filled with at first.
const FILLED_AT_FIRST: usize = 1 << 13;

/// Something that is done to the end, in one record or a few.
type Act = fn(&mut Lone);

/// What a hostile partner and an honest caller do.
const HOSTILE_ACTS: [Act; 23] = [
    calls::start,
    calls::push,
    partner::reads,
    calls::pull,
    partner::packet_and_pull,
    partner::bad_packet_and_pull,
    calls::register,
    calls::reserve,
    calls::send,
    calls::drop_reservation,
    calls::done,
    calls::room,
    calls::view,
    partner::data,
    partner::early_data,
    partner::release_data,
    partner::bound,
    partner::release_bound,
    partner::odd_control,
    partner::change_receive_header,
    partner::change_transmit_header,
    partner::scribble,
    calls::question,
];

/// What comes in with a caller that hands over nonsense.
const NONSENSE_ACTS: [Act; 3] = [calls::lend, calls::lend_whole, calls::any_name];

/// A script of a hostile partner.
pub fn hostile(random: &mut Random) -> Case {
    let opening = openings::good(random);
    let records = openings::records(random, &opening);
    lone(random, opening, records, 24, &HOSTILE_ACTS)
}

/// A script of a partner that does not pull what is on the transmit ring.
pub fn full_ring(random: &mut Random) -> Case {
    let opening = openings::good(random);
    let records = openings::records(random, &opening);
    let mut lone = Lone::open(random, opening, 12);
    while lone.session.rows() < records {
        full::round(&mut lone);
    }
    lone.finish()
}

/// A script of a caller that hands over nonsense.
pub fn nonsense(random: &mut Random) -> Case {
    let acts = [&HOSTILE_ACTS[..], &NONSENSE_ACTS].concat();
    if random.one_in(3) {
        let opening = openings::spoiled(random);
        let records = random.between(4, 40) as usize;
        return lone(random, opening, records, 2, &acts);
    }
    let opening = openings::good(random);
    let records = openings::records(random, &opening);
    lone(random, opening, records, 3, &acts)
}

fn lone(random: &mut Random, opening: Opening, records: usize, odd: u64, acts: &[Act]) -> Case {
    let mut lone = Lone::open(random, opening, odd);
    let mut weights = lone.weights(acts.len());
    while lone.session.rows() < records {
        if lone.random.one_in(20) {
            weights = lone.weights(acts.len());
        }
        let act = lone.weighted(&weights);
        acts[act](&mut lone);
    }
    lone.finish()
}

struct Lone<'r> {
    session: Session,
    random: &'r mut Random,
    /// One in so many arguments is out of the way.
    odd: u64,
}

impl<'r> Lone<'r> {
    fn open(random: &'r mut Random, opening: Opening, odd: u64) -> Self {
        let buffer_length = random.pick(&[0, 3, 8, 16, 16, 48]);
        let spare = random.pick(&[0, 0, 1, 9]);
        let mut lone = Lone {
            session: Session::open(opening, buffer_length, spare),
            random,
            odd,
        };
        lone.settle();
        lone
    }

    fn finish(self) -> Case {
        self.session.finish(self.random)
    }

    /// So many acts, any of these.
    fn act(&mut self, acts: &[Act], times: i64) {
        for _ in 0..times {
            let act = self.random.pick(acts);
            act(self);
        }
    }

    /// Acts come in phases, in which some are frequent and some are not tried.
    fn weights(&mut self, acts: usize) -> Vec<u64> {
        (0..acts)
            .map(|_| self.random.pick(&[0, 1, 1, 3, 10]))
            .collect()
    }

    fn weighted(&mut self, weights: &[u64]) -> usize {
        // One more, so that no phase is without an act.
        let mut left = self.random.below(weights.iter().sum::<u64>() + 1);
        let chosen = weights.iter().position(|&weight| {
            let here = left < weight;
            left = left.saturating_sub(weight);
            here
        });
        chosen.unwrap_or(0)
    }

    /// Some endpoints to begin with, as most calls need a bound one, and bytes
    /// in the receive region.
    fn settle(&mut self) {
        if self.random.one_in(2) {
            self.reserve_all();
        }
        let (endpoints, stored) = match self.random.below(8) {
            0 => (0, 0),
            1 => (8, 0),
            2 => (0, 9),
            3 => (4, 9),
            _ => (self.random.between(1, 3) as u64, 0),
        };
        if self.random.one_in(3) {
            let length = self.session.receive.len().min(FILLED_AT_FIRST);
            let bytes = self.random.bytes(length);
            self.session.write(Slice::Receive, 0, &bytes);
        }
        if !self.random.one_in(4) {
            self.session.play(Record::Start);
        }
        for number in 0..endpoints {
            let name = names::numbered(number);
            let mut outcome = self.session.play(Record::Register(&name));
            // Tiny rings are full before all are registered.
            if outcome.number == Refusal::Full as u32 {
                self.read_all();
                outcome = self.session.play(Record::Register(&name));
            }
            if self.random.one_in(8) {
                continue;
            }
            match outcome.answer.given {
                Given::Control([BOUND, address, start]) => {
                    self.arrival(&[RELEASE_BOUND, address, start]);
                }
                _ => self.binding(0, number as u8, &name),
            }
        }
        for number in endpoints..endpoints + stored {
            let name = names::numbered(number);
            let block = self.free_block(name.len() + 1);
            self.binding(block, number as u8, &name);
        }
    }

    /// Reserves all blocks and drops them: later some are in use as a rule.
    fn reserve_all(&mut self) {
        let Some(open) = self.session.state() else {
            return;
        };
        let all = open.transmit.bytes_of(open.transmit.block_count()) as u32;
        let k = all - HEADER as u32;
        self.session.play(Record::Reserve { k });
        self.session.play(Record::Drop { start: 0 });
    }
}
