//! The kinds of random searches.

use super::calls::{Calls, Table};
use crate::compare::random::{Pool, Random};
use crate::link::layout::MOST_BLOCKS;
use crate::link::search::TABLES;

/// Searches of each table.
const SEARCHES: usize = 8;

/// Free and held blocks in turn, some of each.
pub fn any_runs(calls: &mut Calls, random: &mut Random, _: &Pool) {
    let most_free = random.pick(&[2, 8, 32, 128]);
    let most_held = random.pick(&[1, 2, 16]);
    let mut table = of_runs(random, [most_free, most_held]);
    let all = block_count(random);
    for _ in 0..SEARCHES {
        let wanted = 1 + random.below(most_free + 1) as u32;
        calls.make(&mut table, all, wanted, None);
    }
}

/// Nearly every run is one block shorter than what is mostly wanted.
pub fn short_runs(calls: &mut Calls, random: &mut Random, _: &Pool) {
    let run = random.pick(&[1, 2, 7, 8, 15, 31, 63, 127]);
    let mut held: Vec<u32> = (0..MOST_BLOCKS).filter(|b| b % (run + 1) == run).collect();
    if random.one_in(2) {
        random.take(&mut held);
    }
    let mut table = Table::holding(held);
    for _ in 0..SEARCHES {
        let all = block_count(random);
        let more = random.pick(&[0, 1, 1, 1, 2]);
        calls.make(&mut table, all, run + more, None);
    }
}

/// Bytes that nobody vouches for, in the bits too.
pub fn any_bytes(calls: &mut Calls, random: &mut Random, pool: &Pool) {
    let mut bytes = pool.slice(random, TABLES).to_vec();
    // Fewer held blocks each time.
    for _ in 0..random.below(4) {
        let others = pool.slice(random, TABLES);
        bytes.iter_mut().zip(others).for_each(|(a, b)| *a &= b);
    }
    let mut table = Table::of(&bytes);
    for _ in 0..SEARCHES {
        let (all, wanted) = (block_count(random), 1 + random.below(20) as u32);
        calls.make(&mut table, all, wanted, None);
    }
}

/// Numbers and lengths, most of them out of range.
pub fn any_numbers(calls: &mut Calls, random: &mut Random, _: &Pool) {
    const NUMBERS: [u32; 10] = [0, 1, 2, 255, 256, 257, 512, 65_536, 65_792, u32::MAX];
    let length = random.pick(&[TABLES, TABLES, TABLES, TABLES - 1, TABLES + 1, 32, 0]);
    let mut table = Table::of(&vec![0; length]);
    for _ in 0..SEARCHES {
        let [all, wanted] = [0; 2].map(|_| random.pick(&NUMBERS));
        calls.make(&mut table, all, wanted, None);
    }
}

/// A table of free and held runs, each of one block up to these.
fn of_runs(random: &mut Random, [most_free, most_held]: [u64; 2]) -> Table {
    let mut held = Vec::new();
    let mut block = random.below(most_free + 1) as u32;
    while block < MOST_BLOCKS {
        let behind = block + 1 + random.below(most_held) as u32;
        held.extend(block..behind.min(MOST_BLOCKS));
        block = behind + 1 + random.below(most_free) as u32;
    }
    Table::holding(held)
}

/// Often all that there can be, or one less.
fn block_count(random: &mut Random) -> u32 {
    match random.below(4) {
        0 => MOST_BLOCKS,
        1 => MOST_BLOCKS - 1,
        _ => random.below(u64::from(MOST_BLOCKS) + 1) as u32,
    }
}
