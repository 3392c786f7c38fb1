//! Checks of what is shown: regions and scripts in words.

mod dumps;
mod region;
mod script;

use crate::compare::report::Group;
use crate::compare::{Report, Settings};
use crate::link::refusal::Refusal;

pub fn run(settings: &Settings, report: &mut Report) {
    report.group("look: a number and a sentence for each refusal", |group| {
        refusals(group);
    });
    report.group("region: what must be said of known ones", region::known);
    report.group("region: refused layouts and lengths", region::refused);
    report.group("region: what is said is what an end answers", |group| {
        dumps::as_answered(group, settings);
    });
    report.group("region: any bytes", |group| {
        dumps::any_bytes(group, settings);
    });
    report.group("script: where and why it stops", script::stops);
    report.group("script: records and rows in words", script::words);
}

fn refusals(group: &mut Group) {
    for (number, refusal) in (1..).zip(Refusal::ALL) {
        group.input();
        let sentence = refusal.sentence();
        let same = Refusal::ALL
            .iter()
            .filter(|other| other.sentence() == sentence);
        if *refusal as u32 != number || sentence.is_empty() || same.count() != 1 {
            group.mismatch(|| format!("{refusal:?} is {}: {sentence}", *refusal as u32));
        }
    }
}

/// These lines must be in the text, in this order; blanks between words do not
/// count.
fn says(group: &mut Group, what: &str, text: &str, lines: &[&str]) {
    group.input();
    let plain = |line: &str| line.split_whitespace().collect::<Vec<_>>().join(" ");
    let mut said = text.lines().map(plain);
    for line in lines {
        let line = plain(line);
        if !said.any(|said| said == line) {
            group.mismatch(|| format!("{what}: no line, or not in this order: {line}\n{text}"));
            return;
        }
    }
}
