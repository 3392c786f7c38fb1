//! What is printed and kept of a difference.

use std::env;
use std::fs;
use std::io;
use std::path::{Path, PathBuf};

use super::case::{Case, Lengths};
use super::newer::{newer, Newer};
use super::shrink::shortest;
use crate::compare::random::Random;
use crate::compare::Opponent;
use crate::link::script::{Row, ROW_BYTES};
use crate::look::script::both;

/// Makes the script shorter, keeps it in a file and shows it.
pub fn describe(label: &str, case: &Case, opponent: Opponent) -> String {
    let differs = |case: &Case| !case.run(opponent).alike();
    let short = shortest(case, &differs);
    let in_script_main = in_script_main(short.script.clone());
    let (shown, differs) = if differs(&in_script_main) {
        (&in_script_main, "differs in script_main")
    } else {
        (&short, "does not differ in script_main, but")
    };
    let Lengths {
        transmit,
        receive,
        buffer,
        out,
    } = shown.lengths;
    let made = shown.run(opponent);
    format!(
        "{label}\n  {}\n  {differs} with {transmit} transmit, {receive} receive, {buffer} buffer \
         and {out} out bytes\n{}  {}",
        kept(label, "", &short),
        shown.show(&made, opponent),
        made.difference()
    )
}

/// The script with the slices of `script_main`, the program that takes one from
/// standard input.
pub fn in_script_main(script: Vec<u8>) -> Case {
    let lengths = Lengths {
        transmit: 16_384,
        receive: 16_384,
        buffer: 65_536,
        out: 0,
    };
    let mut case = Case { script, lengths };
    // A row for the opening, and space for one too many.
    case.lengths.out = (case.records().count() + 2) * ROW_BYTES;
    case
}

/// Writes a script to a file and says where.
fn kept(label: &str, ending: &str, case: &Case) -> String {
    let words = label.split(|letter: char| !letter.is_ascii_alphanumeric());
    let words: Vec<&str> = words.filter(|word| !word.is_empty()).collect();
    let name = words.join("-");
    let write = || -> io::Result<PathBuf> {
        // The program is in a folder of the build's.
        let program = env::current_exe()?;
        let build = program.parent().and_then(Path::parent);
        let folder = build.unwrap_or(Path::new("."));
        let file = folder.join(format!("failure-{name}{ending}.script"));
        fs::write(&file, &case.script)?;
        Ok(file)
    };
    match write() {
        Ok(file) => format!("shortened script: {}", file.display()),
        Err(error) => format!("shortened script not kept: {error}"),
    }
}

/// The same for a script whose changes by a newer partner mattered.
pub fn describe_newer(label: &str, base: &Case, opponent: Opponent) -> String {
    let short = shortest(base, &|case| newer_differing(case, opponent).is_some());
    let Some((newer, at)) = newer_differing(&short, opponent) else {
        return format!(
            "{label}: changes of a newer partner matter, but none of those tried again"
        );
    };
    let base_rows = opponent_rows(&short, opponent);
    let newer_rows = opponent_rows(&newer.case, opponent);
    let newer_at = newer.row_of(at);
    // The first row is the opening's.
    let record = at.checked_sub(1).and_then(|at| short.records().nth(at));
    format!(
        "{label}: changes of a newer partner matter\n  {}\n  {}\n  \
         base row {at} and newer row {newer_at} differ (sums in how they change)\n{}\
         base:\n{}newer:\n{}",
        kept(label, "-base", &short),
        kept(label, "-newer", &newer.case),
        both(
            record,
            [
                ("base", base_rows.get(at)),
                ("newer", newer_rows.get(newer_at)),
            ],
        ),
        short.show(&short.run(opponent), opponent),
        newer.case.show(&newer.case.run(opponent), opponent),
    )
}

/// Changes that matter, out of some tried, and the first row where they do.
fn newer_differing(base: &Case, opponent: Opponent) -> Option<(Newer, usize)> {
    const TRIES: u64 = 40;
    let base_rows = opponent_rows(base, opponent);
    (0..TRIES).find_map(|stream| {
        let newer = newer(&mut Random::new(0, stream), base);
        let rows = opponent_rows(&newer.case, opponent);
        let at = newer.first_difference(&base_rows, &rows)?;
        Some((newer, at))
    })
}

fn opponent_rows(case: &Case, opponent: Opponent) -> Vec<Row> {
    case.run(opponent).other_rows().collect()
}
