//! The comparison of picks out of two sheets.

mod bench;
mod calls;
mod inputs;
mod kinds;
mod sample;
mod tree;

use crate::compare::plan::{Batch, Kind, Plan};
use crate::link::fault::Fault;
use calls::Tallies;

pub const PLAN: Plan<Tallies> = Plan {
    name: "sheet",
    subject: "sheets",
    fixed: &FIXED,
    kinds: &KINDS,
    streams: 0x200,
    faults: Fault::SHEETS,
};

const FIXED: [(&str, Batch<Tallies>); 5] = [
    ("sheet bench: stated numbers", bench::bench),
    ("sheet: lengths by single bytes", bench::every_length),
    ("sheet: every change of one byte", sample::every_change),
    ("sheet: every cut", sample::every_cut),
    (
        "sheet: every path of one tag or two, three below one group",
        sample::every_path,
    ),
];

const KINDS: [Kind<Tallies>; 7] = [
    Kind {
        name: "well-formed sheets",
        share: 350,
        make: kinds::well_formed,
    },
    Kind {
        name: "damaged sheets",
        share: 300,
        make: kinds::damaged,
    },
    Kind {
        name: "deep sheets",
        share: 140,
        make: kinds::deep,
    },
    Kind {
        name: "large sheets",
        share: 15,
        make: kinds::large,
    },
    Kind {
        name: "short sheets",
        share: 100,
        make: kinds::short,
    },
    Kind {
        name: "sheets of any bytes",
        share: 35,
        make: kinds::any_bytes,
    },
    Kind {
        name: "parts of one memory",
        share: 60,
        make: kinds::shared,
    },
];
