//! The words and options of the command line.

use std::time::{SystemTime, UNIX_EPOCH};

use crate::compare::{Opponent, Settings};
use crate::link::fault::Fault;
use crate::link::layout::Request;

/// What is to be done.
pub enum Task {
    /// The comparisons asked for; none named is all.
    Compare(Vec<String>),
    Soak {
        minutes: u64,
    },
    Script {
        file: String,
        rows: Option<usize>,
    },
    Region {
        file: String,
        bounds: Bounds,
    },
}

/// A region as it is asked for on the command line.
#[derive(Clone, Copy)]
pub struct Bounds {
    begin: u32,
    end: Option<u32>,
    local_blocks: u32,
    remote_blocks: u32,
    alignment: u32,
}

impl Bounds {
    /// The lower region of the usual example.
    pub const USUAL: Bounds = Bounds {
        begin: 0x2007_0000,
        end: None,
        local_blocks: 16,
        remote_blocks: 32,
        alignment: 32,
    };

    /// For a dump of so many bytes. One that would end behind the last address
    /// is cut there.
    pub fn request(&self, length: usize) -> Request {
        let length = u32::try_from(length).unwrap_or(u32::MAX);
        Request {
            begin: self.begin,
            end: self.end.unwrap_or(self.begin.saturating_add(length)),
            local_blocks: self.local_blocks,
            remote_blocks: self.remote_blocks,
            alignment: self.alignment,
        }
    }
}

/// Options as they are given.
struct Options {
    seed: Option<u64>,
    minutes: Option<u64>,
    rows: Option<u64>,
    /// None if no option of a region is given.
    bounds: Option<Bounds>,
    settings: Settings,
}

/// None if a word is unknown, or an option has no good value or no use.
pub fn parse(
    mut arguments: impl Iterator<Item = String>,
    comparisons: &[&str],
) -> Option<(Task, Settings)> {
    let mut options = Options {
        seed: None,
        minutes: None,
        rows: None,
        bounds: None,
        settings: Settings {
            seed: 1,
            cases: 3_000_000,
            calls: 2_000_000,
            opponent: Opponent::Proved,
        },
    };
    let mut words = Vec::new();
    while let Some(argument) = arguments.next() {
        if argument.starts_with("--") {
            options.set(&argument, &arguments.next()?)?;
        } else {
            words.push(argument);
        }
    }
    let task = options.task(words, comparisons)?;
    Some((task, options.settings))
}

impl Options {
    fn set(&mut self, option: &str, value: &str) -> Option<()> {
        let settings = &mut self.settings;
        match option {
            "--seed" => self.seed = Some(value.parse().ok()?),
            "--cases" => settings.cases = positive(value)?,
            "--calls" => settings.calls = positive(value)?,
            "--fault" => settings.opponent = planted(value)?,
            "--minutes" => self.minutes = Some(positive(value)?),
            "--rows" => self.rows = Some(value.parse().ok()?),
            _ => {
                let bounds = self.bounds.get_or_insert(Bounds::USUAL);
                let number = number(value)?;
                match option {
                    "--begin" => bounds.begin = number,
                    "--end" => bounds.end = Some(number),
                    "--local-blocks" => bounds.local_blocks = number,
                    "--remote-blocks" => bounds.remote_blocks = number,
                    "--alignment" => bounds.alignment = number,
                    _ => return None,
                }
            }
        }
        Some(())
    }

    fn task(&mut self, words: Vec<String>, comparisons: &[&str]) -> Option<Task> {
        let spelled: Vec<&str> = words.iter().map(String::as_str).collect();
        let settings = &mut self.settings;
        settings.seed = self.seed.unwrap_or(settings.seed);
        Some(match (&spelled[..], self.minutes, self.rows, self.bounds) {
            (["soak"], Some(minutes), None, None) => {
                settings.seed = self.seed.unwrap_or_else(clock);
                Task::Soak { minutes }
            }
            (["script", file], None, rows, None) => Task::Script {
                file: file.to_string(),
                rows: rows.map(|rows| rows as usize),
            },
            (["region", file], None, None, bounds) => Task::Region {
                file: file.to_string(),
                bounds: bounds.unwrap_or(Bounds::USUAL),
            },
            (known, None, None, None) if known.iter().all(|word| comparisons.contains(word)) => {
                Task::Compare(words)
            }
            _ => return None,
        })
    }
}

fn positive(number: &str) -> Option<u64> {
    number.parse().ok().filter(|&number| number > 0)
}

/// Decimal, or hexadecimal behind 0x.
fn number(text: &str) -> Option<u32> {
    match text.strip_prefix("0x") {
        Some(digits) => u32::from_str_radix(digits, 16).ok(),
        None => text.parse().ok(),
    }
}

/// The second implementation with the fault of that name.
fn planted(name: &str) -> Option<Opponent> {
    let fault = Fault::all().find(|fault| fault.name() == name)?;
    Some(Opponent::Planted(fault))
}

/// A seed that nobody chose.
fn clock() -> u64 {
    let since = SystemTime::now().duration_since(UNIX_EPOCH);
    since.map_or(0, |since| since.as_micros() as u64)
}
