//! How often each outcome occurred.

use crate::compare::report::Group;
use crate::link::refusal::{outcome_name, Refusal};

/// Every outcome must occur this often in a run.
const LEAST_OCCURRENCES: u64 = 100;

/// The outcomes there are: accepted, and each refusal.
const OUTCOMES: usize = Refusal::ALL.len() + 1;

#[derive(Default)]
pub struct Tally {
    occurrences: [u64; OUTCOMES],
}

impl Tally {
    /// Counts an outcome by its number, 0 if accepted.
    pub fn count(&mut self, number: u32) {
        self.occurrences[number as usize] += 1;
    }

    /// Prints how often each of these outcomes occurred, and checks it.
    pub fn check(&self, group: &mut Group, call: &str, numbers: &[u32]) {
        for &number in numbers {
            let name = outcome_name(number);
            let occurrences = self.occurrences(number);
            println!("{call} outcomes: {name:<10} {occurrences:>10}");
        }
        self.check_least(group, call, numbers);
    }

    pub fn check_least(&self, group: &mut Group, call: &str, numbers: &[u32]) {
        for &number in numbers {
            let outcome = format!("{call}: {}", outcome_name(number));
            check_least(group, &outcome, self.occurrences(number));
        }
    }

    /// An outcome that the rules do not give to the call must not occur.
    pub fn check_no_other(&self, group: &mut Group, call: &str, numbers: &[u32]) {
        for number in (0..OUTCOMES as u32).filter(|number| !numbers.contains(number)) {
            let occurrences = self.occurrences(number);
            group.input();
            if occurrences > 0 {
                group.mismatch(|| {
                    let name = outcome_name(number);
                    format!("{call}: {name} occurred {occurrences} times, and never should")
                });
            }
        }
    }

    pub fn occurrences(&self, number: u32) -> u64 {
        self.occurrences[number as usize]
    }
}

/// A comparison that hardly met some outcome has shown little about it.
pub fn check_least(group: &mut Group, outcome: &str, occurrences: u64) {
    group.input();
    if occurrences < LEAST_OCCURRENCES {
        group.mismatch(|| {
            format!("{outcome} occurred {occurrences} times, under {LEAST_OCCURRENCES}")
        });
    }
}
