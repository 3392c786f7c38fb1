//! The comparison of plain units.

mod bench;
mod calls;
mod causes;
mod hostile;
mod inputs;
mod openings;
mod side;
mod talk;

use crate::compare::plan::{Batch, Kind, Plan};
use crate::link::fault::Fault;
use calls::Tallies;

pub const PLAN: Plan<Tallies> = Plan {
    name: "unit",
    subject: "units",
    fixed: &FIXED,
    kinds: &KINDS,
    streams: 0x100,
    faults: Fault::UNITS,
};

const FIXED: [(&str, Batch<Tallies>); 6] = [
    ("unit bench: openings", openings::bench),
    ("unit bench: the least region", bench::least_region),
    (
        "unit: openings, lengths by single bytes",
        openings::every_length,
    ),
    (
        "unit: openings, alignments 0 to 600",
        openings::every_alignment,
    ),
    (
        "unit: openings, distances by single bytes",
        openings::every_distance,
    ),
    ("unit: every choice of causes", causes::every_choice),
];

const KINDS: [Kind<Tallies>; 7] = [
    Kind {
        name: "openings near limits",
        share: 120,
        make: openings::near_limits,
    },
    Kind {
        name: "openings of any kind",
        share: 60,
        make: openings::any_numbers,
    },
    Kind {
        name: "causes mixed",
        share: 200,
        make: causes::mixed,
    },
    Kind {
        name: "hostile partner",
        share: 300,
        make: hostile::partner,
    },
    Kind {
        name: "regions of any kind",
        share: 100,
        make: hostile::any_numbers,
    },
    Kind {
        name: "two units that talk",
        share: 218,
        make: talk::talk,
    },
    Kind {
        name: "long contents",
        share: 2,
        make: talk::long_contents,
    },
];
