//! Two ends that talk to each other as they should, each in a script of its
//! own. What one writes reaches the other's script before its next call.
//!
//! Packets of a ring stay in order, and the start content comes before all
//! others: by it a side knows that its partner is there. Nothing else does:
//! replies to bindings that have arrived are pushed late and in any order, and
//! any of the control messages that were pulled is handed over next.
//!
//! So a follower's data can overtake its release of the binding. It binds the
//! initiator's endpoint, which is sent on from then on; the blocks of the
//! binding are free when the release has come, too. No message can overtake one
//! that it needs: data of a follower needs no more than an endpoint that waits,
//! an initiator sends data only when its partner has bound, and blocks are used
//! again only when their release has arrived.
//!
//! These refusals are all that the ends can meet: 8, nothing to pull yet; 24,
//! blocks in use; 23, a message or name longer than all blocks.
//!
//! In some pairs both also push messages of unknown kind, 13, until the rings
//! are full. There send, register and done meet 10, too. What they were called
//! for is as it was then, so they are tried again later.

mod messages;
mod packets;

use std::collections::BTreeMap;
use std::ops::Range;

use super::case::Case;
use super::session::Session;
use super::{names, openings};
use crate::compare::random::Random;
use crate::link::end::{Given, Incoming, Name, Open, Outcome, Outgoing, Slice, CONTROL};
use crate::link::script::Record;

/// Bytes of the buffer: the longest content is that of the start.
const BUFFER: usize = 16;

/// Something that one side does; false if there was nothing to do.
type Act = fn(&mut Pair, usize) -> bool;

/// What both sides do all the time.
const ACTS: [Act; 11] = [
    packets::pull,
    packets::arrival,
    packets::reply,
    packets::crowd,
    messages::register,
    messages::reserve,
    messages::use_room,
    messages::give_up,
    messages::view,
    messages::done,
    messages::question,
];

/// What brings everything under way to its end.
const SETTLING: [Act; 5] = [
    packets::pull,
    packets::arrival,
    messages::give_up,
    messages::done,
    packets::reply,
];

/// Rounds of settling after which nothing is under way: a ring that is full takes
/// one to be emptied, a message two to be released, and the two sides take turns.
const SETTLING_ROUNDS: usize = 4;

/// What two ends came to.
pub struct Honest {
    /// Both ends' scripts.
    pub cases: [Case; 2],
    /// What went wrong, if something did.
    pub complaints: Vec<String>,
    pub overtaken: Overtaken,
}

/// How often a follower's data came before its release of the binding, and what
/// the initiator did about it.
#[derive(Clone, Copy, Default)]
pub struct Overtaken {
    /// Data that bound its endpoint.
    pub bound: u64,
    /// Messages sent on such an endpoint before the release came.
    pub sent: u64,
    /// Releases that came afterwards.
    pub released: u64,
}

pub fn honest(random: &mut Random) -> Honest {
    let opening = openings::good(random);
    let records = openings::records(random, &opening);
    let spare = random.pick(&[0, 0, 1, 8]);
    let crowded = random.one_in(3);
    let mut pair = Pair {
        sides: [opening, opening.swapped()]
            .map(|opening| Side::new(Session::open(opening, BUFFER, spare))),
        random,
        crowded,
        complaints: Vec::new(),
        overtaken: Overtaken::default(),
    };
    pair.talk(records);
    pair.settle();

    let Pair {
        sides,
        random,
        complaints,
        overtaken,
        ..
    } = pair;
    Honest {
        cases: sides.map(|side| side.session.finish(random)),
        complaints,
        overtaken,
    }
}

/// A data message on its way, or held by its receiver.
struct Message {
    address: u8,
    content: Vec<u8>,
}

struct Side {
    session: Session,
    /// What the other side wrote to the common memory, not yet in the script.
    unseen: Vec<(Slice, usize, Vec<u8>)>,
    started: bool,
    /// Packets it pushed that the other side has not pulled.
    on_ring: usize,
    /// The partner's start content was seen.
    bonded: bool,
    /// Replies to bindings that have arrived, not yet pushed.
    replies: Vec<[u8; CONTROL]>,
    /// Contents pulled and not yet handed over.
    pulled: Vec<Vec<u8>>,
    registered: usize,
    /// Addresses this side knows to be bound.
    bound: Vec<u8>,
    /// Blocks of the bindings it sent, by address, until they are released.
    announced: BTreeMap<u8, u32>,
    reserved: Vec<u32>,
    /// Messages it sent, by start, until they are released.
    sent: BTreeMap<u32, Message>,
    /// Starts of messages it received and is not done with.
    held: Vec<u32>,
}

impl Side {
    fn new(session: Session) -> Self {
        Side {
            session,
            unseen: Vec::new(),
            started: false,
            on_ring: 0,
            bonded: false,
            replies: Vec::new(),
            pulled: Vec::new(),
            registered: 0,
            bound: Vec::new(),
            announced: BTreeMap::new(),
            reserved: Vec::new(),
            sent: BTreeMap::new(),
            held: Vec::new(),
        }
    }

    fn state(&self) -> &Open {
        self.session.state().expect("a good opening")
    }

    /// Free blocks to transmit.
    fn free(&self) -> u32 {
        let open = self.state();
        open.transmit.free(&open.outgoing)
    }

    /// The name of the endpoint that has this address.
    fn name(&self, address: u8) -> Option<&Name> {
        let mut endpoints = self.state().endpoints.iter();
        let endpoint = endpoints.find(|endpoint| endpoint.address == Some(address));
        endpoint.map(|endpoint| &endpoint.name)
    }

    fn has_registered(&self, name: Option<&Name>) -> bool {
        let mut endpoints = self.state().endpoints.iter();
        endpoints.any(|endpoint| Some(&endpoint.name) == name)
    }
}

struct Pair<'r> {
    sides: [Side; 2],
    random: &'r mut Random,
    /// Messages of unknown kind fill the rings.
    crowded: bool,
    complaints: Vec<String>,
    overtaken: Overtaken,
}

impl Pair<'_> {
    /// True if a call is left out because it would be refused; now and then it
    /// is made.
    fn hopeless(&mut self, refused: bool) -> bool {
        refused && !self.random.one_in(6)
    }

    /// Both sides act, in phases: in some, blocks fill up or messages are held
    /// for long, because nobody gives any back.
    fn talk(&mut self, records: usize) {
        let mut weights = self.weights();
        while self.sides.iter().any(|side| side.session.rows() < records) {
            if self.random.one_in(30) {
                weights = self.weights();
            }
            let at = self.random.below(weights.len() as u64) as usize;
            if self.random.below(8) < weights[at] {
                let side = at % 2;
                if self.sides[side].started {
                    ACTS[at / 2](self, side);
                } else {
                    self.start(side);
                }
            }
        }
    }

    /// How often each side does each act, out of eight times.
    fn weights(&mut self) -> Vec<u64> {
        (0..2 * ACTS.len())
            .map(|_| self.random.pick(&[0, 1, 2, 4, 8]))
            .collect()
    }

    /// Brings everything that is under way to its end. Then all blocks are
    /// free but those of bindings that nobody has registered for, and whose
    /// endpoints are therefore not bound.
    fn settle(&mut self) {
        for side in [0, 1] {
            if !self.sides[side].started {
                self.start(side);
            }
        }
        for side in (0..SETTLING_ROUNDS).flat_map(|_| [0, 1]) {
            for act in SETTLING {
                while act(self, side) {}
            }
        }
        for number in [0, 1] {
            let [side, partner] = [&self.sides[number], &self.sides[1 - number]];
            let open = side.state();
            let bindings_only = open.outgoing.iter().all(|run| match run.state {
                Outgoing::Binding { address } => {
                    let registered = partner.has_registered(side.name(address));
                    !registered && !side.bound.contains(&address)
                }
                Outgoing::Data | Outgoing::Reserved => false,
            }) && open.incoming.iter().all(|run| match &run.state {
                Incoming::Stored { name, .. } => !side.has_registered(Some(name)),
                Incoming::Data { .. } => false,
            });
            if !bindings_only || !side.sent.is_empty() {
                self.complaints
                    .push("a message was never released".to_string());
            }
        }
    }

    fn start(&mut self, side: usize) {
        self.pushing_call(side, Record::Start, &[]);
        self.sides[side].started = true;
    }

    /// A call of one side that can put a packet on its ring, which may be full in
    /// a crowd.
    fn pushing_call(&mut self, side: usize, record: Record, refusals: &[u32]) -> Outcome {
        let full: &[u32] = if self.crowded { &[10] } else { &[] };
        let outcome = self.call(side, record, &[refusals, full].concat());
        let pushes = matches!(outcome.answer.given, Given::Control(_) | Given::Length(_));
        if outcome.number == 0 && pushes {
            self.sides[side].on_ring += 1;
        }
        outcome
    }

    /// A call of one side, which may come to nothing but these refusals.
    fn call(&mut self, side: usize, record: Record, refusals: &[u32]) -> Outcome {
        let caller = &mut self.sides[side];
        for (slice, offset, bytes) in caller.unseen.drain(..) {
            caller.session.write(slice, offset, &bytes);
        }
        let outcome = caller.session.play(record);
        if outcome.number != 0 && !refusals.contains(&outcome.number) {
            let number = outcome.number;
            self.complain(format!("{record} was refused by {number}"));
        }
        for written in &outcome.answer.written {
            self.mirror(side, written.slice, written.range.clone());
        }
        outcome
    }

    fn complain(&mut self, complaint: String) {
        self.complaints.push(complaint);
    }

    /// Bytes that a side wrote to the common memory are to reach the other.
    fn mirror(&mut self, side: usize, slice: Slice, range: Range<usize>) {
        let session = &self.sides[side].session;
        let (bytes, seen_as) = match slice {
            Slice::Transmit => (&session.transmit, Slice::Receive),
            Slice::Receive => (&session.receive, Slice::Transmit),
            Slice::Buffer => return,
        };
        let unseen = (seen_as, range.start, bytes[range].to_vec());
        self.sides[1 - side].unseen.push(unseen);
    }
}
