//! Plants faults in the second implementation and sees that the traffic finds
//! them, the unit comparison those of units, the sheet comparison those of
//! sheets, and the search comparison those of searches.

use super::case::Case;
use super::shrink::shortest;
use super::{honest, newer_partner, Batch, Source};
use crate::compare::random::Random;
use crate::compare::report::{Group, Report};
use crate::compare::{search, sheet, unit, Opponent, Settings};
use crate::link::fault::{self, Fault};

/// Faults that make changes of a newer partner matter.
const NEWER_FAULTS: [Fault; 8] = [
    Fault::LongControlRefused,
    Fault::KindOfTwoBits,
    Fault::ReservedBytesRead,
    Fault::NextPacketSought,
    Fault::BrokenContentCopied,
    Fault::SizeReadAgain,
    Fault::BytesBehindNameRefused,
    Fault::LongBoundGivesDelivery,
];

/// Faults that two ends with them notice without a comparison.
const HONEST_FAULTS: [Fault; 26] = [
    Fault::EmptyIsBroken,
    Fault::EarlyDataRefused,
    Fault::EarlyDataSwallowed,
    Fault::DataLeavesWaiting,
    Fault::DataFreesBinding,
    Fault::LateReleaseRefused,
    Fault::LateReleaseHolds,
    Fault::LateReleaseUnbinds,
    Fault::BoundHolds,
    Fault::CountInByte,
    Fault::ViewFromHeader,
    Fault::FullSends,
    Fault::FullRegisters,
    Fault::FullHoldsBinding,
    Fault::FullForgetsStored,
    Fault::FullForgets,
    Fault::FullUnseen,
    Fault::SendUnpushed,
    Fault::BindingUnpushed,
    Fault::TakingUnpushed,
    Fault::DoneUnpushed,
    Fault::ToldTwice,
    Fault::ToldKeepsOwnIndex,
    Fault::ToldUnwritten,
    Fault::WaitingPushes,
    Fault::ReplyPushed,
];

pub fn run(settings: &Settings, report: &mut Report) {
    report.group("faults: the traffic finds every one", |group| {
        find_all(group, settings);
    });
    report.group("faults: the unit comparison finds every one", |group| {
        unit::PLAN.find_all(settings, group);
    });
    report.group("faults: the sheet comparison finds every one", |group| {
        sheet::PLAN.find_all(settings, group);
    });
    report.group("faults: the search comparison finds every one", |group| {
        search::PLAN.find_all(settings, group);
    });
    report.group("faults: a newer partner brings them out", |group| {
        for fault in NEWER_FAULTS {
            find(group, settings, fault, |random| {
                let batch = newer_partner(random);
                newer_differs(&batch, Opponent::Planted(fault))
            });
        }
    });
    report.group("faults: honest use notices them", |group| {
        for fault in HONEST_FAULTS {
            find(group, settings, fault, |random| {
                let made = fault::with(fault, || honest::honest(random));
                !made.complaints.is_empty()
            });
        }
    });
}

/// Runs the same scripts as the comparison with the proved code, a batch of
/// each kind in turn.
fn find_all(group: &mut Group, settings: &Settings) {
    let mut left = Fault::ENDS.to_vec();
    let mut sources: Vec<Source> = Source::all(settings.seed, settings.calls).collect();
    let mut calls = 0;
    while !left.is_empty() && sources.iter().any(|source| !source.is_finished()) {
        for source in sources.iter_mut().filter(|source| !source.is_finished()) {
            let batch = source.make();
            let made = count_calls(&batch);
            source.calls += made;
            calls += made;
            left.retain(|&fault| {
                let opponent = Opponent::Planted(fault);
                let found = finding(&batch, opponent);
                if let Some(case) = &found {
                    let short = shortest(case, &|case| !case.run(opponent).alike());
                    println!(
                        "{:<22}  found after {calls:>7} calls  {:<18}  {:>2} records  {}",
                        fault.name(),
                        source.kind.name,
                        short.records().count(),
                        fault.wrong()
                    );
                    group.input();
                }
                found.is_none()
            });
        }
    }
    for fault in left {
        group.input();
        group.mismatch(|| not_found(fault, &format!("{calls} calls")));
    }
}

fn count_calls(batch: &Batch) -> u64 {
    let records = batch.scripts().flat_map(Case::records);
    records.filter(|record| record.is_call()).count() as u64
}

/// The script that shows the fault, if there is one.
fn finding(batch: &Batch, opponent: Opponent) -> Option<&Case> {
    let mut scripts = batch.scripts();
    scripts.find(|case| !case.run(opponent).alike())
}

/// True if the rows of the opponent alone show that changes mattered.
fn newer_differs(batch: &Batch, opponent: Opponent) -> bool {
    let Some(newer) = &batch.newer else {
        return false;
    };
    let [base, changed] = [&batch.cases[0], &newer.case]
        .map(|case| case.run(opponent).other_rows().collect::<Vec<_>>());
    newer.first_difference(&base, &changed).is_some()
}

/// Tries until a fault shows.
fn find(
    group: &mut Group,
    settings: &Settings,
    fault: Fault,
    mut shows: impl FnMut(&mut Random) -> bool,
) {
    const TRIES: u64 = 20_000;
    let found = (0..TRIES).find(|&stream| shows(&mut Random::new(settings.seed, stream)));
    group.input();
    match found {
        Some(before) => println!(
            "{:<22}  found after {:>7} scripts  {}",
            fault.name(),
            before + 1,
            fault.wrong()
        ),
        None => group.mismatch(|| not_found(fault, &format!("{TRIES} scripts"))),
    }
}

pub fn not_found(fault: Fault, tried: &str) -> String {
    format!(
        "{} was not found in {tried}: {}",
        fault.name(),
        fault.wrong()
    )
}
