//! Named groups of checks: their lines of output, and the count at the end.

use std::io::{stderr, IsTerminal, Write};
use std::time::{Duration, Instant};

/// Mismatches of one group that are printed; the others are only counted.
const PRINTED_MISMATCHES: u64 = 10;

/// The clock is read once in this many inputs: one comparison can be faster
/// than a look at the clock.
const INPUTS_PER_CLOCK: u64 = 1024;

/// A line that is rewritten in place can be so more often.
const TERMINAL_PAUSE: Duration = Duration::from_millis(300);

pub struct Report {
    passed: u64,
    failed: u64,
    progress: Progress,
}

impl Report {
    /// Off a terminal there is a line of progress after each pause.
    pub fn new(pause: Duration) -> Self {
        Report {
            passed: 0,
            failed: 0,
            progress: Progress::new(pause),
        }
    }

    /// Runs one group and prints its line.
    pub fn group(&mut self, name: &str, run: impl FnOnce(&mut Group)) {
        let mut group = Group {
            name,
            inputs: 0,
            mismatches: 0,
            started: Instant::now(),
            note: String::new(),
            progress: &mut self.progress,
        };
        run(&mut group);
        group.progress.clear();

        let Group {
            inputs, mismatches, ..
        } = group;
        print!("{name:<58} {inputs:>10} compared  ");
        // A group that compared nothing has shown nothing.
        if mismatches == 0 && inputs > 0 {
            self.passed += 1;
            println!("ok");
        } else {
            self.failed += 1;
            println!("FAILED, {mismatches} mismatches");
        }
    }

    /// Prints the last line; true if nothing failed.
    pub fn finish(self) -> bool {
        println!("{} passed, {} failed", self.passed, self.failed);
        self.failed == 0
    }
}

/// A group under way.
pub struct Group<'a> {
    name: &'a str,
    inputs: u64,
    mismatches: u64,
    started: Instant,
    /// What else the progress line says.
    note: String,
    progress: &'a mut Progress,
}

impl Group<'_> {
    /// Counts inputs that are compared.
    pub fn input(&mut self) {
        self.inputs += 1;
        if self.inputs.is_multiple_of(INPUTS_PER_CLOCK) {
            let rate = self.inputs as f64 / self.started.elapsed().as_secs_f64();
            self.progress.show(|| {
                format!(
                    "{}: {} compared, {rate:.0} per second{}",
                    self.name, self.inputs, self.note
                )
            });
        }
    }

    /// Puts something at the end of the progress line.
    pub fn note(&mut self, note: &str) {
        self.note = format!(", {note}");
    }

    pub fn has_failed(&self) -> bool {
        self.mismatches > 0
    }

    /// Counts a mismatch and prints its description, if it is an early one.
    pub fn mismatch(&mut self, describe: impl FnOnce() -> String) {
        self.mismatches += 1;
        if self.mismatches > PRINTED_MISMATCHES {
            return;
        }
        self.progress.clear();
        println!(
            "mismatch in {}, input {}: {}",
            self.name,
            self.inputs,
            describe()
        );
        if self.mismatches == PRINTED_MISMATCHES {
            println!("mismatches in {}: further ones are not printed", self.name);
        }
    }
}

/// The progress line on stderr: rewritten in place on a terminal, else a line
/// now and then.
struct Progress {
    terminal: bool,
    pause: Duration,
    last: Instant,
    shown: bool,
}

impl Progress {
    fn new(pause: Duration) -> Self {
        let terminal = stderr().is_terminal();
        Progress {
            terminal,
            pause: if terminal { TERMINAL_PAUSE } else { pause },
            last: Instant::now(),
            shown: false,
        }
    }

    fn show(&mut self, line: impl FnOnce() -> String) {
        if self.last.elapsed() < self.pause {
            return;
        }
        self.last = Instant::now();
        if self.terminal {
            eprint!("\r\x1b[K{}", line());
            // A lost progress line is no reason to stop.
            let _ = stderr().flush();
            self.shown = true;
        } else {
            eprintln!("{}", line());
        }
    }

    /// Clears the way for a line of output.
    fn clear(&mut self) {
        if self.shown {
            eprint!("\r\x1b[K");
            self.shown = false;
        }
    }
}
