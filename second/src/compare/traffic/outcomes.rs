//! How often each call had each outcome.

use std::array::from_fn;
use std::collections::BTreeMap;

use super::honest::Overtaken;
use super::refused_pushes::RefusedPushes;
use super::stages::Stages;
use crate::compare::report::Group;
use crate::compare::tally::{check_least, Tally};
use crate::link::end::{ControlKind, Opening};
use crate::link::refusal::outcome_name;
use crate::link::script::{Record, Row};

/// What is given with an outcome. Control bytes are told apart by their kind,
/// the first of them, and a length by whether dropped bytes come with it.
#[derive(Clone, Copy, PartialEq, Eq)]
enum With {
    Nothing,
    Length,
    Dropped,
    Run,
    Control(u32),
    Delivery,
    /// What no call gives, by its number in a row and how many values there
    /// are.
    Other(u32, usize),
}

const fn control(kind: ControlKind) -> With {
    With::Control(kind as u32)
}

/// A pull whose last one before was refused by 9; it is counted as a pull, too.
const AFTER_DROP: &str = "pull, next after a 9";

/// What a script's end is.
#[derive(Clone, Copy, PartialEq, Eq)]
pub enum Role {
    Closed,
    Initiator,
    Follower,
}

/// The calls of a script, arrivals by their kind and register by the role, with
/// all that each can give and the outcomes with which it gives that. Push can
/// also be refused by 11, which is for contents of over 65,535 bytes: no script
/// can hold one, and the ring comparison has it.
const OUTCOMES: [(&str, With, &[u32]); 57] = [
    ("opening", With::Nothing, &[0, 1, 2, 3, 4, 5]),
    ("arrival, empty", With::Nothing, &[6, 12]),
    ("arrival, unknown kind", With::Nothing, &[6, 13]),
    ("arrival, data", With::Delivery, &[0]),
    ("arrival, data", With::Nothing, &[6, 12, 14, 15, 16, 17, 18]),
    ("arrival, release data", With::Nothing, &[0, 6, 12, 16, 25]),
    // It binds at once, or is stored.
    ("arrival, bound", control(ControlKind::ReleaseBound), &[0]),
    (
        "arrival, bound",
        With::Nothing,
        &[0, 6, 12, 14, 16, 17, 18, 19, 20, 21, 22],
    ),
    (
        "arrival, release bound",
        With::Nothing,
        &[0, 6, 12, 14, 16, 25],
    ),
    ("register, closed end", With::Nothing, &[6]),
    ("register, initiator", control(ControlKind::Bound), &[0]),
    (
        "register, initiator",
        With::Nothing,
        &[6, 7, 10, 20, 21, 22, 23, 24],
    ),
    // It finds a stored binding, and looks at the ring; or it waits.
    (
        "register, follower",
        control(ControlKind::ReleaseBound),
        &[0],
    ),
    (
        "register, follower",
        With::Nothing,
        &[0, 6, 7, 10, 20, 21, 22],
    ),
    ("reserve", With::Run, &[0]),
    ("reserve", With::Nothing, &[6, 23, 24]),
    ("send", control(ControlKind::Data), &[0]),
    ("send", With::Nothing, &[6, 7, 10, 15, 23, 25]),
    ("drop", With::Nothing, &[0, 6, 25]),
    ("done", control(ControlKind::ReleaseData), &[0]),
    ("done", With::Nothing, &[6, 7, 10, 25]),
    ("push", With::Length, &[0, 6, 7, 10]),
    ("start", With::Length, &[0, 6]),
    ("pull", With::Length, &[0, 6, 7, 8]),
    ("pull", With::Dropped, &[9]),
    (AFTER_DROP, With::Length, &[0, 6, 7, 8]),
    (AFTER_DROP, With::Dropped, &[9]),
    ("room", With::Nothing, &[0, 6, 25]),
    ("view", With::Nothing, &[0, 6, 25]),
    ("room question", With::Nothing, &[0, 6, 25]),
    ("view question", With::Nothing, &[0, 6, 25]),
    // Calls on endpoints on their way to be bound, counted once more.
    ("data, waiting", With::Delivery, &[0]),
    ("data, waiting", With::Nothing, &[16, 17, 18]),
    ("data, refused before", With::Delivery, &[0]),
    ("data, refused before", With::Nothing, &[16, 17, 18]),
    ("data, bound by data", With::Delivery, &[0]),
    ("data, bound by data", With::Nothing, &[16, 17, 18]),
    ("data 0, follower waits", With::Nothing, &[15]),
    ("kind 3, waiting", With::Nothing, &[0]),
    ("kind 3, refused before", With::Nothing, &[0]),
    ("kind 3, bound by data", With::Nothing, &[0]),
    ("kind 3, a second time", With::Nothing, &[25]),
    ("send, waiting", With::Nothing, &[15, 25]),
    ("send, refused before", With::Nothing, &[15, 25]),
    ("send, bound by data", control(ControlKind::Data), &[0]),
    ("send, bound by data", With::Nothing, &[7, 10, 23, 25]),
    // Calls that push, where the ring has refused before, counted once more.
    ("send, 10 before", control(ControlKind::Data), &[0]),
    ("send, 10 before", With::Nothing, &[7, 10, 15, 23]),
    ("done, 10 before", control(ControlKind::ReleaseData), &[0]),
    ("done, 10 before", With::Nothing, &[7, 10]),
    ("initiator, 10 before", control(ControlKind::Bound), &[0]),
    ("initiator, 10 before", With::Nothing, &[7, 10, 24]),
    (
        "follower, 10 before",
        control(ControlKind::ReleaseBound),
        &[0],
    ),
    ("follower, 10 before", With::Nothing, &[7, 10]),
    ("waits on a full ring", With::Nothing, &[0]),
    ("waits on a bad index", With::Nothing, &[0]),
    ("done, wrong slice", With::Nothing, &[6]),
];

/// What the list calls a record; none if it is no call.
fn call_of(record: &Record, role: Role) -> Option<&'static str> {
    Some(match record {
        Record::Arrival([]) => "arrival, empty",
        Record::Arrival([first, ..]) => match ControlKind::of(*first) {
            Some(ControlKind::Data) => "arrival, data",
            Some(ControlKind::ReleaseData) => "arrival, release data",
            Some(ControlKind::Bound) => "arrival, bound",
            Some(ControlKind::ReleaseBound) => "arrival, release bound",
            None => "arrival, unknown kind",
        },
        Record::Register(_) => match role {
            Role::Closed => "register, closed end",
            Role::Initiator => "register, initiator",
            Role::Follower => "register, follower",
        },
        Record::Reserve { .. } => "reserve",
        Record::Send { .. } => "send",
        Record::Drop { .. } => "drop",
        Record::Done { .. } => "done",
        Record::Push(_) => "push",
        Record::Start => "start",
        Record::Pull { .. } => "pull",
        Record::Room { .. } => "room",
        Record::View { .. } => "view",
        Record::RoomQuestion { .. } => "room question",
        Record::ViewQuestion { .. } => "view question",
        Record::Write { .. } | Record::Lend { .. } => return None,
    })
}

/// What a row says is given.
fn with(row: &Row) -> With {
    match (row.given(), row.values()) {
        (0, []) => With::Nothing,
        (1, [_]) => With::Length,
        (1, [0, dropped]) if *dropped > 0 => With::Dropped,
        (2, [_, _]) => With::Run,
        (3, [kind, _, _]) => With::Control(*kind),
        (4, [_, _, _]) => With::Delivery,
        (given, values) => With::Other(given, values.len()),
    }
}

impl With {
    fn name(self) -> String {
        match self {
            With::Nothing => "nothing".to_string(),
            With::Length => "length".to_string(),
            With::Dropped => "dropped".to_string(),
            With::Run => "run".to_string(),
            With::Control(kind) => format!("bytes {kind}"),
            With::Delivery => "delivery".to_string(),
            With::Other(given, values) => format!("{values} values of {given}"),
        }
    }
}

pub struct Outcomes {
    tallies: [Tally; OUTCOMES.len()],
    /// Calls that gave what they never give, in words.
    others: BTreeMap<String, u64>,
    role: Role,
    /// The last pull of the script was refused by 9.
    after_drop: bool,
    /// The endpoints of the script's end.
    stages: Stages,
    refused_pushes: RefusedPushes,
    /// Of honest ends.
    overtaken: Overtaken,
}

impl Outcomes {
    pub fn new() -> Self {
        Outcomes {
            tallies: from_fn(|_| Tally::default()),
            others: BTreeMap::new(),
            role: Role::Closed,
            after_drop: false,
            stages: Stages::default(),
            refused_pushes: RefusedPushes::default(),
            overtaken: Overtaken::default(),
        }
    }

    /// A script begins.
    pub fn count_opening(&mut self, opening: &Opening, row: &Row) {
        self.role = match row.number() {
            0 if opening.receive_begin < opening.transmit_begin => Role::Initiator,
            0 => Role::Follower,
            _ => Role::Closed,
        };
        self.after_drop = false;
        self.stages = Stages::default();
        self.refused_pushes = RefusedPushes::default();
        self.count_call("opening", row);
    }

    /// Two honest ends have been made.
    pub fn count_overtaken(&mut self, overtaken: &Overtaken) {
        self.overtaken.bound += overtaken.bound;
        self.overtaken.sent += overtaken.sent;
        self.overtaken.released += overtaken.released;
    }

    /// True if the record is a call.
    pub fn count(&mut self, record: &Record, row: &Row) -> bool {
        let call = call_of(record, self.role);
        if let Some(call) = call {
            self.count_call(call, row);
        }
        if let Record::Pull { .. } = record {
            if self.after_drop {
                self.count_call(AFTER_DROP, row);
            }
            self.after_drop = row.number() == 9;
        }
        if let Some(call) = self.stages.call(record, row) {
            self.count_call(call, row);
        }
        self.stages.follow(record, row);
        if let Some(call) = self.refused_pushes.call(self.role, record, row) {
            self.count_call(call, row);
        }
        self.refused_pushes.follow(record, row);
        call.is_some()
    }

    fn count_call(&mut self, call: &str, row: &Row) {
        let with = with(row);
        let mut lines = OUTCOMES.iter();
        match lines.position(|&(name, given, _)| given == with && name == call) {
            Some(at) => self.tallies[at].count(row.number()),
            None => {
                let outcome = outcome_name(row.number());
                let other = format!("{call}: {outcome} with {}", with.name());
                *self.others.entry(other).or_default() += 1;
            }
        }
    }

    /// Prints the table; every outcome of the rules must have occurred, and no
    /// other.
    pub fn check(&self, group: &mut Group) {
        println!(
            "outcomes by call and what is given, number: times (11 of push is among the ring's)"
        );
        for (tally, (call, with, numbers)) in self.tallies.iter().zip(OUTCOMES) {
            let with = with.name();
            let counts = numbers
                .iter()
                .map(|&number| format!("  {number}: {}", tally.occurrences(number)));
            println!("{call:<24}{with:<9}{}", counts.collect::<String>());
            let call = format!("{call}, given {with}");
            tally.check_least(group, &call, numbers);
            tally.check_no_other(group, &call, numbers);
        }
        for (other, times) in &self.others {
            group.mismatch(|| format!("{other} occurred {times} times, and never should"));
        }
        self.check_overtaken(group);
    }

    fn check_overtaken(&self, group: &mut Group) {
        let Overtaken {
            bound,
            sent,
            released,
        } = self.overtaken;
        for (what, times) in [
            ("honest data that came before kind 3", bound),
            ("honest sends after it, before kind 3", sent),
            ("honest kind 3 that came after data", released),
        ] {
            println!("{what}: {times}");
            check_least(group, what, times);
        }
    }
}
