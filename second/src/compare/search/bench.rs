//! Searches with start and turns stated beforehand, and all of a small size.

use super::calls::{Calls, Stated, Table};
use crate::compare::random::{Pool, Random};
use crate::link::layout::MOST_BLOCKS;
use crate::link::search::TABLES;

/// Whether a block is held.
type Held = fn(u32) -> bool;

/// Held blocks, how many blocks there are, how many are wanted, and what must
/// come of it.
#[rustfmt::skip]
const BENCH: [(Held, u32, u32, Stated); 24] = [
    // Where a search takes longest.
    (|block| block % 2 == 1, 256, 2, (None, 256)),
    (|block| block % 2 == 0, 256, 2, (None, 256)),
    (|block| block < 255, 256, 1, (Some(255), 256)),
    (|_| false, 256, 256, (Some(0), 256)),
    (|_| true, 256, 1, (None, 256)),
    (|block| block % 16 == 15, 256, 16, (None, 256)),
    (|block| block % 128 == 127, 256, 128, (None, 256)),
    (|block| block == 255, 256, 256, (None, 256)),
    (|block| block == 127, 256, 128, (Some(128), 256)),
    // It ends with the run's last block.
    (|_| false, 256, 1, (Some(0), 1)),
    (|_| false, 256, 100, (Some(0), 100)),
    (|block| block == 0, 256, 1, (Some(1), 2)),
    (|block| block < 8, 256, 8, (Some(8), 16)),
    (|block| block == 6, 16, 7, (Some(7), 14)),
    (|block| block == 6, 16, 6, (Some(0), 6)),
    (|block| block == 2 || block == 5, 16, 3, (Some(6), 9)),
    // Blocks behind the last are not looked at, be they free or held.
    (|block| block == 0, 8, 8, (None, 8)),
    (|block| block >= 7, 8, 7, (Some(0), 7)),
    (|block| block >= 7, 7, 8, (None, 7)),
    (|_| false, 1, 1, (Some(0), 1)),
    (|block| block == 0, 1, 1, (None, 1)),
    (|_| false, 0, 1, (None, 0)),
    // More than there are.
    (|_| false, 256, 257, (None, 256)),
    (|_| false, 255, u32::MAX, (None, 255)),
];

pub fn bench(calls: &mut Calls, _: &mut Random, _: &Pool) {
    for (held, all, wanted, stated) in BENCH {
        let mut table = Table::holding((0..MOST_BLOCKS).filter(|&block| held(block)));
        calls.make(&mut table, all, wanted, Some(stated));
    }
    // What cannot be asked.
    for (length, all, wanted) in [
        (TABLES, MOST_BLOCKS + 1, 1),
        (TABLES, u32::MAX, 1),
        (TABLES, 16, 0),
        (TABLES - 1, 16, 1),
        (TABLES + 1, 16, 1),
        (0, 16, 1),
    ] {
        calls.make(&mut Table::of(&vec![0; length]), all, wanted, None);
    }
}

/// Each with every number of blocks wanted, and one more.
pub fn every_small_table(calls: &mut Calls, _: &mut Random, _: &Pool) {
    for all in 0..=12 {
        for bits in 0..1 << all {
            let mut table = Table::holding((0..all).filter(|block| bits >> block & 1 == 1));
            for wanted in 1..=all + 1 {
                calls.make(&mut table, all, wanted, None);
            }
        }
    }
}

/// The longest run before, between and behind the held blocks, and one block
/// more.
pub fn few_held(calls: &mut Calls, _: &mut Random, _: &Pool) {
    for all in [1, 8, 9, 255, 256] {
        for low in 0..all {
            for high in (low..all).step_by(all as usize / 8 + 1) {
                let mut table = Table::holding([low, high]);
                let between = (high - low).saturating_sub(1);
                for run in [low, between, all - 1 - high] {
                    calls.make(&mut table, all, run.max(1), None);
                    calls.make(&mut table, all, run + 1, None);
                }
            }
        }
    }
}
