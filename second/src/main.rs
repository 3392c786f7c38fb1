//! Compares an independent second implementation of Petrelknob with the
//! proved code, and shows scripts and regions in words.

mod compare;
mod link;
mod look;
mod options;

use std::env;
use std::fs::{self, File};
use std::io::{self, stdout, Read, Write};
use std::process::ExitCode;
use std::time::Duration;

use compare::traffic::{self, in_script_main};
use compare::{layout, looking, ring, search, sheet, unit, Report, Settings};
use link::layout::LARGEST_REGION;
use link::script::ROW_BYTES;
use options::{parse, Bounds, Task};

type Comparison = fn(&Settings, &mut Report);

/// The comparisons there are, by the word that asks for one alone.
const COMPARISONS: [(&str, Comparison); 8] = [
    ("layout", layout::run),
    ("ring", ring::run),
    ("unit", |settings, report| unit::PLAN.run(settings, report)),
    ("sheet", |settings, report| {
        sheet::PLAN.run(settings, report)
    }),
    ("search", |settings, report| {
        search::PLAN.run(settings, report)
    }),
    ("end", traffic::run),
    ("look", looking::run),
    ("faults", traffic::run_faults),
];

const USAGE: &str = "\
usage: second [layout | ring | unit | sheet | search | end | look | faults]... [--seed N] [--cases N] [--calls N] [--fault NAME]
       second soak --minutes N [--seed N] [--fault NAME]
       second script FILE [--rows N] [--fault NAME]
       second region FILE [--begin N] [--end N] [--local-blocks N] [--remote-blocks N] [--alignment N]

Without a word all comparisons run:
  layout, ring  with the proved functions of the panel
  unit          plain units, with the proved functions of the panel
  sheet         values picked out of two sheets, with the proved function of the panel
  search        the search for free blocks and its turns, with the proved one of the tables
  end           random traffic: call scripts, run by both sides
  look          what script and region print
  faults        plants faults in the second implementation; traffic, unit, sheet and search must find them
soak            traffic with one seed after the other, until the time is over
script          runs one call script with the slices of script_main and shows it in words
region          shows a dump of one region, its bytes from raw begin to raw end, in words

--seed N        decides all random inputs (1; of soak, the clock)
--cases N       random cases of layout, of ring, of unit and of sheet, at least 1; search makes about a third as many
--calls N       calls of the traffic, at least 1
--fault NAME    traffic, units, sheets and searches against the second implementation itself with this
                fault, as listed by faults, to see what a failure looks like
--rows N        space for so many rows (for all)
--begin N       the region's raw begin (0x20070000)
--end N         its raw end (begin and the file's length)
--local-blocks N, --remote-blocks N, --alignment N
                the region's own block count, the other's, and the alignment (16, 32, 32)
N is decimal, of a region also hexadecimal with 0x.";

fn main() -> ExitCode {
    let Some((task, settings)) = parse(env::args().skip(1), &COMPARISONS.map(|(word, _)| word))
    else {
        eprintln!("{USAGE}");
        return ExitCode::from(2);
    };
    let good = match task {
        Task::Compare(words) => compare(&words, &settings),
        Task::Soak { minutes } => soak(minutes, &settings),
        Task::Script { file, rows } => script(&file, rows, &settings),
        Task::Region { file, bounds } => region(&file, bounds),
    };
    if good {
        ExitCode::SUCCESS
    } else {
        ExitCode::FAILURE
    }
}

fn compare(words: &[String], settings: &Settings) -> bool {
    let Settings {
        seed, cases, calls, ..
    } = settings;
    println!("seed {seed}, {cases} random cases, {calls} calls");
    let mut report = Report::new(Duration::from_secs(2));
    for (name, run) in COMPARISONS {
        if words.is_empty() || words.iter().any(|word| word == name) {
            run(settings, &mut report);
        }
    }
    report.finish()
}

fn soak(minutes: u64, settings: &Settings) -> bool {
    println!("seed {}, {minutes} minutes", settings.seed);
    let mut report = Report::new(Duration::from_secs(10));
    traffic::soak(settings, minutes, &mut report);
    report.finish()
}

/// Shows one script; true if both sides agree on it.
fn script(file: &str, rows: Option<usize>, settings: &Settings) -> bool {
    let Some(script) = contents(file, fs::read(file)) else {
        return false;
    };
    let mut case = in_script_main(script);
    if let Some(rows) = rows {
        case.lengths.out = rows.saturating_mul(ROW_BYTES).min(case.lengths.out);
    }
    let made = case.run(settings.opponent);
    let agreed = if made.alike() {
        "Both sides agree.\n".to_string()
    } else {
        format!("The sides differ.\n  {}\n", made.difference())
    };
    print(&(case.show(&made, settings.opponent) + &agreed));
    made.alike()
}

/// Shows one region; true if its layout is accepted and the file has its length.
fn region(file: &str, bounds: Bounds) -> bool {
    let read = || {
        let mut bytes = Vec::new();
        // One byte more than any region has is enough to refuse it.
        let most = LARGEST_REGION as u64 + 1;
        File::open(file)?.take(most).read_to_end(&mut bytes)?;
        Ok(bytes)
    };
    let Some(bytes) = contents(file, read()) else {
        return false;
    };
    let request = bounds.request(bytes.len());
    let shown = look::region::show(&request, &bytes);
    print(shown.as_ref().unwrap_or_else(|refused| refused));
    shown.is_ok()
}

/// What a file has in it; if it cannot be read, that is said.
fn contents(file: &str, read: io::Result<Vec<u8>>) -> Option<Vec<u8>> {
    read.map_err(|error| eprintln!("{file}: {error}")).ok()
}

/// Prints a text; a reader that has seen enough is no reason to complain.
fn print(text: &str) {
    let _ = stdout().write_all(text.as_bytes());
}
