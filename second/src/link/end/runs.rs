//! The blocks of one direction that are in use, as runs.

use std::mem::replace;
use std::ops::Range;

use crate::link::fault::{planted, unless, Fault};
use crate::link::refusal::Refusal;

/// Consecutive blocks of one message.
pub struct Run<S> {
    pub start: u32,
    pub count: u32,
    pub state: S,
}

impl<S> Run<S> {
    pub fn blocks(&self) -> Range<u32> {
        self.start..self.start + self.count
    }
}

/// The runs of one direction, by start; no two share a block.
pub struct Runs<S> {
    runs: Vec<Run<S>>,
}

impl<S> Runs<S> {
    pub fn new() -> Self {
        Runs { runs: Vec::new() }
    }

    pub fn iter(&self) -> impl Iterator<Item = &Run<S>> {
        self.runs.iter()
    }

    pub fn iter_mut(&mut self) -> impl Iterator<Item = &mut Run<S>> {
        self.runs.iter_mut()
    }

    /// The starts of the runs in a state that is wanted.
    pub fn starts(&self, wanted: impl Fn(&S) -> bool) -> Vec<u32> {
        let runs = self.runs.iter().filter(|run| wanted(&run.state));
        runs.map(|run| run.start).collect()
    }

    pub fn hold(&mut self, start: u32, count: u32, state: S) {
        let count = unless(Fault::CountInByte, count, u32::from(count as u8));
        let at = self.runs.partition_point(|run| run.start < start);
        let run = Run {
            start,
            count,
            state,
        };
        self.runs.insert(at, run);
    }

    /// The run that starts there in a state that is wanted.
    pub fn find(
        &mut self,
        start: u32,
        wanted: impl Fn(&S) -> bool,
    ) -> Result<&mut Run<S>, Refusal> {
        let start = unless(Fault::StartInByte, start, start & 0xFF);
        self.runs
            .iter_mut()
            .find(|run| run.start == start && wanted(&run.state))
            .ok_or(Refusal::NoMessage)
    }

    /// Frees the blocks of the run that starts there.
    pub fn release(&mut self, start: u32) {
        self.runs.retain(|run| run.start != start);
    }

    /// True if one of these blocks is in use for what counts.
    pub fn meet(&self, blocks: &Range<u32>, counts: impl Fn(&S) -> bool) -> bool {
        self.runs.iter().any(|run| {
            let held = run.blocks();
            counts(&run.state) && held.start < blocks.end && blocks.start < held.end
        })
    }

    /// Blocks in use.
    pub fn held(&self) -> u64 {
        self.runs.iter().map(|run| u64::from(run.count)).sum()
    }

    /// The lowest start of that many consecutive free blocks out of all.
    pub fn lowest_free(&self, count: u32, all: u32) -> Result<u32, Refusal> {
        let mut free_from = 0;
        let end_of_all = all..all;
        let held = self.runs.iter().map(Run::blocks).chain([end_of_all]);
        let mut long_enough = held
            .map(|held| replace(&mut free_from, held.end)..held.start)
            .filter(|gap| gap.start + count <= gap.end)
            .map(|gap| gap.start);
        let start = if planted(Fault::HighestGap) {
            long_enough.last()
        } else {
            long_enough.next()
        };
        start.ok_or(Refusal::NoRoom)
    }
}
