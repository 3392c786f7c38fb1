//! Comparisons that make their calls one by one: groups with their own number
//! of calls, kinds of random calls, and the faults that those must find.

use super::random::{Pool, Random};
use super::report::{Group, Report};
use super::traffic::not_found;
use super::{Opponent, Settings};
use crate::link::fault::Fault;

/// Makes some calls.
pub type Batch<T> = fn(&mut Calls<T>, &mut Random, &Pool);

/// A kind of random calls.
pub struct Kind<T> {
    pub name: &'static str,
    /// Its part of 1,000 calls.
    pub share: u64,
    pub make: Batch<T>,
}

/// A difference, and how many calls had been made then.
struct Difference {
    calls: u64,
    words: String,
}

/// How often each outcome of a comparison's calls occurred.
pub trait Tallies: Default {
    /// Every outcome of the rules must have come up, and no other.
    fn check(&self, group: &mut Group);
}

/// The calls of a comparison, counted, and what was found different.
pub struct Calls<T> {
    pub opponent: Opponent,
    pub tallies: T,
    pub made: u64,
    /// Calls that a group has counted.
    told: u64,
    differences: Vec<Difference>,
}

impl<T: Tallies> Calls<T> {
    fn new(opponent: Opponent) -> Self {
        Calls {
            opponent,
            tallies: T::default(),
            made: 0,
            told: 0,
            differences: Vec::new(),
        }
    }

    pub fn differ(&mut self, describe: impl FnOnce() -> String) {
        self.differences.push(Difference {
            calls: self.made,
            words: describe(),
        });
    }

    pub fn has_differences(&self) -> bool {
        !self.differences.is_empty()
    }

    /// Tells the group what has been made and found since the last time.
    fn tell(&mut self, group: &mut Group) {
        for _ in self.told..self.made {
            group.input();
        }
        self.told = self.made;
        for difference in self.differences.drain(..) {
            group.mismatch(|| format!("call {}, {}", difference.calls, difference.words));
        }
    }
}

/// A whole comparison.
pub struct Plan<T: 'static> {
    pub name: &'static str,
    /// What its calls are about.
    pub subject: &'static str,
    pub fixed: &'static [(&'static str, Batch<T>)],
    pub kinds: &'static [Kind<T>],
    /// Random streams of the first kind, far from those of other comparisons.
    pub streams: u64,
    /// The faults that the random calls must find.
    pub faults: &'static [Fault],
}

impl<T: Tallies> Plan<T> {
    pub fn run(&self, settings: &Settings, report: &mut Report) {
        let mut calls = Calls::new(settings.opponent);
        let pool = pool(settings);
        for (stream, (name, make)) in (1..).zip(self.fixed) {
            report.group(name, |group| {
                make(&mut calls, &mut Random::new(settings.seed, stream), &pool);
                calls.tell(group);
            });
        }
        for mut source in self.sources(settings) {
            let name = format!("{} random: {}", self.name, source.kind.name);
            report.group(&name, |group| {
                while !source.is_finished() && !group.has_failed() {
                    source.make(&mut calls, &pool);
                    calls.tell(group);
                }
            });
        }
        println!("{} calls of {} compared", calls.made, self.subject);
        let name = format!("{}: every outcome occurred, and no other", self.name);
        report.group(&name, |group| calls.tallies.check(group));
    }

    /// Plants each fault and makes the random calls of the comparison, a batch of
    /// each kind in turn.
    pub fn find_all(&self, settings: &Settings, group: &mut Group) {
        let pool = pool(settings);
        let mut found = Vec::new();
        for &fault in self.faults {
            group.input();
            match self.find(settings, &pool, fault) {
                Ok((calls, kind)) => found.push((calls, kind, fault)),
                Err(calls) => group.mismatch(|| {
                    let tried = format!("{calls} calls of {}", self.subject);
                    not_found(fault, &tried)
                }),
            }
        }
        found.sort_by_key(|&(calls, ..)| calls);
        for (calls, kind, fault) in found {
            println!(
                "{:<22}  found after {calls:>7} calls  {kind:<20}  {}",
                fault.name(),
                fault.wrong()
            );
        }
    }

    /// The calls until the fault shows, and what kind they were of; if it does not
    /// show, all calls.
    fn find(
        &self,
        settings: &Settings,
        pool: &Pool,
        fault: Fault,
    ) -> Result<(u64, &'static str), u64> {
        let mut calls = Calls::new(Opponent::Planted(fault));
        let mut sources: Vec<Source<T>> = self.sources(settings).collect();
        while sources.iter().any(|source| !source.is_finished()) {
            for source in sources.iter_mut().filter(|source| !source.is_finished()) {
                source.make(&mut calls, pool);
                if let Some(first) = calls.differences.first() {
                    return Ok((first.calls, source.kind.name));
                }
            }
        }
        Err(calls.made)
    }

    /// A source for each kind.
    fn sources(&self, settings: &Settings) -> impl Iterator<Item = Source<T>> {
        let Settings { seed, cases, .. } = *settings;
        (self.streams..)
            .zip(self.kinds)
            .map(move |(stream, kind)| Source {
                kind,
                seed,
                stream: stream << 48,
                calls: 0,
                most_calls: (cases * kind.share).div_ceil(1000),
            })
    }
}

/// Batches of one kind, one after the other, until there are calls enough.
struct Source<T: 'static> {
    kind: &'static Kind<T>,
    seed: u64,
    stream: u64,
    calls: u64,
    most_calls: u64,
}

impl<T: Tallies> Source<T> {
    fn is_finished(&self) -> bool {
        self.calls >= self.most_calls
    }

    fn make(&mut self, calls: &mut Calls<T>, pool: &Pool) {
        let mut random = Random::new(self.seed, self.stream);
        self.stream += 1;
        let before = calls.made;
        (self.kind.make)(calls, &mut random, pool);
        self.calls += calls.made - before;
    }
}

/// Bytes for whatever is lent.
fn pool(settings: &Settings) -> Pool {
    Pool::new(&mut Random::new(settings.seed, 0))
}
