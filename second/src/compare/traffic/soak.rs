//! Traffic for as long as it is told, with one seed after the other.

use std::time::{Duration, Instant};

use super::outcomes::Outcomes;
use super::{compare_all, Source};
use crate::compare::report::Report;
use crate::compare::Settings;

/// Calls of each seed.
const CALLS_PER_SEED: u64 = 50_000;

pub fn run(settings: &Settings, minutes: u64, report: &mut Report) {
    let end = Instant::now() + Duration::from_secs(60 * minutes);
    let mut outcomes = Outcomes::new();
    report.group(&format!("soak of {minutes} minutes"), |group| {
        let seeds = (0..).map(|round| settings.seed.wrapping_add(round));
        for seed in seeds {
            for mut source in Source::all(seed, CALLS_PER_SEED) {
                let left = end.saturating_duration_since(Instant::now());
                if left.is_zero() || group.has_failed() {
                    return;
                }
                let left = left.as_secs();
                group.note(&format!("seed {seed}, {}:{:02} left", left / 60, left % 60));
                compare_all(group, &mut source, settings.opponent, &mut outcomes);
            }
        }
    });
    report.group("soak: every outcome occurred, and no other", |group| {
        outcomes.check(group);
    });
}
