//! Random traffic: scripts of every kind, run by both sides.

mod bench;
mod case;
mod failure;
mod honest;
mod lone;
mod malformed;
mod names;
mod newer;
mod openings;
mod outcomes;
mod planted;
mod refused_pushes;
mod session;
mod shrink;
mod soak;
mod stages;

pub use case::Case;
pub use failure::in_script_main;
pub use planted::{not_found, run as run_faults};
pub use soak::run as soak;

use crate::compare::random::Random;
use crate::compare::report::{Group, Report};
use crate::compare::{Opponent, Settings};
use honest::{Honest, Overtaken};
use newer::Newer;
use outcomes::Outcomes;

/// Scripts that are made together.
struct Batch {
    cases: Vec<Case>,
    /// What was found wrong when they were made.
    complaints: Vec<String>,
    /// What honest ends did about early data.
    overtaken: Overtaken,
    /// One more script: the case with the changes of a newer partner.
    newer: Option<Newer>,
}

impl Batch {
    fn of(cases: impl Into<Vec<Case>>) -> Self {
        Batch {
            cases: cases.into(),
            complaints: Vec::new(),
            overtaken: Overtaken::default(),
            newer: None,
        }
    }

    fn scripts(&self) -> impl Iterator<Item = &Case> {
        let newer = self.newer.iter().map(|newer| &newer.case);
        self.cases.iter().chain(newer)
    }
}

/// A kind of traffic.
struct Kind {
    name: &'static str,
    /// Its part of all calls, in percent.
    share: u64,
    make: fn(&mut Random) -> Batch,
}

const KINDS: [Kind; 6] = [
    Kind {
        name: "honest",
        share: 32,
        make: |random| {
            let Honest {
                cases,
                complaints,
                overtaken,
            } = honest::honest(random);
            Batch {
                complaints,
                overtaken,
                ..Batch::of(cases)
            }
        },
    },
    Kind {
        name: "hostile partner",
        share: 26,
        make: |random| Batch::of([lone::hostile(random)]),
    },
    Kind {
        name: "full rings",
        share: 10,
        make: |random| Batch::of([lone::full_ring(random)]),
    },
    Kind {
        name: "nonsense arguments",
        share: 14,
        make: |random| Batch::of([lone::nonsense(random)]),
    },
    Kind {
        name: "malformed scripts",
        share: 4,
        make: |random| Batch::of([malformed::malformed(random)]),
    },
    Kind {
        name: "newer partner",
        share: 14,
        make: newer_partner,
    },
];

fn newer_partner(random: &mut Random) -> Batch {
    let base = match random.below(5) {
        0 => {
            let [case, _] = honest::honest(random).cases;
            case
        }
        1 => lone::nonsense(random),
        2 => lone::full_ring(random),
        _ => lone::hostile(random),
    };
    let newer = newer::newer(random, &base);
    Batch {
        newer: Some(newer),
        ..Batch::of([base])
    }
}

/// Scripts of one kind, one batch after the other, until there are calls
/// enough.
struct Source {
    kind: &'static Kind,
    seed: u64,
    stream: u64,
    /// Batches made.
    batches: u64,
    calls: u64,
    most_calls: u64,
}

impl Source {
    /// A source for each kind.
    fn all(seed: u64, calls: u64) -> impl Iterator<Item = Source> {
        // Streams far from those of other comparisons.
        (1_u64..).zip(&KINDS).map(move |(stream, kind)| Source {
            kind,
            seed,
            stream: stream << 48,
            batches: 0,
            calls: 0,
            most_calls: (calls * kind.share).div_ceil(100),
        })
    }

    fn is_finished(&self) -> bool {
        self.calls >= self.most_calls
    }

    fn make(&mut self) -> Batch {
        let mut random = Random::new(self.seed, self.stream + self.batches);
        self.batches += 1;
        (self.kind.make)(&mut random)
    }

    /// What says which batch was made last.
    fn label(&self) -> String {
        format!(
            "seed {}, {}, script {}",
            self.seed, self.kind.name, self.batches
        )
    }
}

/// Runs the whole comparison.
pub fn run(settings: &Settings, report: &mut Report) {
    report.group("end bench: outcomes stated beforehand", |group| {
        bench::compare(group, settings.opponent);
    });
    let mut outcomes = Outcomes::new();
    let mut calls = 0;
    for mut source in Source::all(settings.seed, settings.calls) {
        report.group(&format!("end random: {}", source.kind.name), |group| {
            compare_all(group, &mut source, settings.opponent, &mut outcomes);
        });
        calls += source.calls;
    }
    println!("{calls} calls compared");
    report.group("end: every outcome occurred, and no other", |group| {
        outcomes.check(group);
    });
}

/// Compares what the source makes until it is finished, or has failed often.
fn compare_all(
    group: &mut Group,
    source: &mut Source,
    opponent: Opponent,
    outcomes: &mut Outcomes,
) {
    // Each is made shorter, which takes its time.
    const MOST_FAILURES: u64 = 3;
    let mut failures = 0;
    while !source.is_finished() && failures < MOST_FAILURES {
        let batch = source.make();
        outcomes.count_overtaken(&batch.overtaken);
        let failed = compare(group, source, &batch, opponent, outcomes);
        failures += u64::from(failed);
    }
}

/// True if something is wrong; it is reported.
fn compare(
    group: &mut Group,
    source: &mut Source,
    batch: &Batch,
    opponent: Opponent,
    outcomes: &mut Outcomes,
) -> bool {
    let mut failed = false;
    for complaint in &batch.complaints {
        failed = true;
        group.mismatch(|| format!("{}: {complaint}", source.label()));
    }
    let mut opponent_rows = Vec::new();
    for case in batch.scripts() {
        let made = case.run(opponent);
        let mut rows = made.second_rows();
        if let (Some(opening), Some(row)) = (case.opening(), rows.next()) {
            outcomes.count_opening(&opening, &row);
        }
        for (record, row) in case.records().zip(rows) {
            if outcomes.count(&record, &row) {
                group.input();
                source.calls += 1;
            }
        }
        if !made.alike() {
            failed = true;
            group.mismatch(|| failure::describe(&source.label(), case, opponent));
        }
        opponent_rows.push(made.other_rows().collect::<Vec<_>>());
    }
    if let (Some(newer), [base, changed]) = (&batch.newer, &opponent_rows[..]) {
        if newer.first_difference(base, changed).is_some() {
            failed = true;
            group.mismatch(|| failure::describe_newer(&source.label(), &batch.cases[0], opponent));
        }
    }
    failed
}
