//! The comparison of the search for free blocks, with its turns.

mod bench;
mod calls;
mod kinds;

use crate::compare::plan::{Batch, Kind, Plan};
use crate::link::fault::Fault;
use calls::Tallies;

pub const PLAN: Plan<Tallies> = Plan {
    name: "search",
    subject: "the search",
    fixed: &FIXED,
    kinds: &KINDS,
    streams: 0x300,
    faults: Fault::SEARCHES,
};

const FIXED: [(&str, Batch<Tallies>); 3] = [
    ("search bench: stated starts and turns", bench::bench),
    (
        "search: every table of up to 12 blocks",
        bench::every_small_table,
    ),
    ("search: one held block, or two", bench::few_held),
];

const KINDS: [Kind<Tallies>; 4] = [
    Kind {
        name: "runs of any length",
        share: 120,
        make: kinds::any_runs,
    },
    Kind {
        name: "runs that are too short",
        share: 120,
        make: kinds::short_runs,
    },
    Kind {
        name: "tables of any bytes",
        share: 80,
        make: kinds::any_bytes,
    },
    Kind {
        name: "numbers of any kind",
        share: 20,
        make: kinds::any_numbers,
    },
];
