//! The comparison of the two layouts.

pub mod inputs;

use std::fmt::{self, Display, Formatter};

use crate::compare::proved;
use crate::compare::random::Random;
use crate::compare::report::{Group, Report};
use crate::compare::tally::Tally;
use crate::compare::twin::{Twin, PATTERN};
use crate::compare::Settings;
use crate::link::layout::{lay_out, ring_minimum, round_up, Request, ALIGNMENTS, MOST_BLOCKS};
use crate::link::refusal::outcome_name;
use inputs::{FAMILIES, MIXTURES};

/// Values of a layout: aligned begin, data length, blocks begin, block
/// size, aligned end.
const VALUES: usize = 5;

/// The longest answer tried; it has space for more than the values.
const LONGEST_ANSWER: usize = 8;

/// Runs the whole comparison.
pub fn run(settings: &Settings, report: &mut Report) {
    let mut tally = Tally::default();

    for (name, request, stated) in bench_cases() {
        report.group(&format!("layout bench: {name}"), |group| {
            let outcomes = compare(group, &mut tally, &request);
            check_stated(group, &request, &stated, outcomes);
        });
    }
    report.group(
        "layout: least region of every alignment and counts",
        |group| {
            least_regions(group, &mut tally);
        },
    );
    for (name, family) in FAMILIES {
        report.group(&format!("layout corners: {name}"), |group| {
            family(&mut |request| {
                compare(group, &mut tally, &request);
            });
        });
    }
    report.group("layout: answers of 0 to 8 elements", |group| {
        answer_lengths(group, &mut tally, settings.seed);
    });
    let share = settings.cases.div_ceil(MIXTURES.len() as u64);
    for (stream, (name, mixture)) in (1..).zip(MIXTURES) {
        report.group(&format!("layout random: {name}"), |group| {
            let mut random = Random::new(settings.seed, stream);
            for _ in 0..share {
                compare(group, &mut tally, &mixture(&mut random));
            }
        });
    }
    report.group("layout: every outcome occurred", |group| {
        tally.check(group, "layout", &[0, 1, 2, 3, 4]);
    });
}

/// What one implementation answers; refusal 0 is an accepted layout.
#[derive(Clone, Copy, PartialEq, Eq)]
struct Outcome {
    refusal: u32,
    values: [u32; VALUES],
}

impl Outcome {
    fn second(request: &Request) -> Self {
        match lay_out(request) {
            Ok(layout) => Outcome {
                refusal: 0,
                values: [
                    layout.begin,
                    layout.data_length,
                    layout.blocks_begin,
                    layout.block_size,
                    layout.end,
                ],
            },
            Err(refusal) => Outcome {
                refusal: refusal as u32,
                values: [0; VALUES],
            },
        }
    }

    fn proved(request: &Request) -> Self {
        let mut values = [PATTERN; VALUES];
        let refusal = proved::layout(request, &mut values);
        Outcome { refusal, values }
    }
}

impl Display for Outcome {
    fn fmt(&self, f: &mut Formatter) -> fmt::Result {
        let [begin, data_length, blocks_begin, block_size, end] = self.values;
        write!(
            f,
            "{}, begin {begin:#x}, data length {data_length}, \
             blocks begin {blocks_begin:#x}, block size {block_size}, end {end:#x}",
            outcome_name(self.refusal)
        )
    }
}

/// Asks both implementations, which must agree; gives both answers.
fn compare(
    group: &mut Group,
    tally: &mut Tally,
    request: &Request,
) -> [(&'static str, Outcome); 2] {
    let second = Outcome::second(request);
    let proved = Outcome::proved(request);
    group.input();
    tally.count(second.refusal);
    if second != proved {
        group.mismatch(|| format!("{request}\n  second: {second}\n  proved: {proved}"));
    }
    [("second", second), ("proved", proved)]
}

/// What is known of an answer beforehand.
enum Stated {
    Layout {
        block_size: u32,
        blocks_begin: Option<u32>,
    },
    Refusal(u32),
}

impl Stated {
    fn holds(&self, outcome: &Outcome) -> bool {
        let [_, _, begin, size, _] = outcome.values;
        match *self {
            Stated::Layout {
                block_size,
                blocks_begin,
            } => {
                outcome.refusal == 0
                    && size == block_size
                    && blocks_begin.is_none_or(|stated| begin == stated)
            }
            Stated::Refusal(number) => outcome.refusal == number && outcome.values == [0; VALUES],
        }
    }
}

impl Display for Stated {
    fn fmt(&self, f: &mut Formatter) -> fmt::Result {
        match self {
            Stated::Layout {
                block_size,
                blocks_begin,
            } => {
                write!(f, "accepted, block size {block_size}")?;
                match blocks_begin {
                    Some(begin) => write!(f, ", blocks begin {begin:#x}"),
                    None => Ok(()),
                }
            }
            Stated::Refusal(number) => write!(f, "refusal {number} and zeros"),
        }
    }
}

fn check_stated(
    group: &mut Group,
    request: &Request,
    stated: &Stated,
    outcomes: [(&str, Outcome); 2],
) {
    for (name, outcome) in outcomes {
        if !stated.holds(&outcome) {
            group.mismatch(|| format!("{request}\n  stated: {stated}\n  {name}: {outcome}"));
        }
    }
}

fn bench_cases() -> [(&'static str, Request, Stated); 6] {
    let request = |begin, end, local_blocks, remote_blocks, alignment| Request {
        begin,
        end,
        local_blocks,
        remote_blocks,
        alignment,
    };
    let layout = |block_size, blocks_begin| Stated::Layout {
        block_size,
        blocks_begin,
    };
    [
        (
            "2 KiB, 16 blocks",
            request(0x2007_0000, 0x2007_0800, 16, 32, 32),
            layout(96, Some(0x2007_0200)),
        ),
        (
            "2 KiB, 32 blocks",
            request(0x2007_8000, 0x2007_8800, 32, 16, 32),
            layout(32, Some(0x2007_8400)),
        ),
        (
            "2 KiB, 16 blocks, alignment 4",
            request(0x2007_0000, 0x2007_0800, 16, 32, 4),
            layout(100, Some(0x2007_01C0)),
        ),
        (
            "begin and end off alignment",
            request(0x2007_0010, 0x2007_07F0, 16, 32, 32),
            layout(96, Some(0x2007_01E0)),
        ),
        (
            "44 bytes, one block",
            request(0x2007_0000, 0x2007_002C, 1, 1, 4),
            layout(4, None),
        ),
        (
            "40 bytes, refused",
            request(0x2007_0000, 0x2007_0028, 1, 1, 4),
            Stated::Refusal(4),
        ),
    ]
}

/// For every good alignment and pair of counts, the least aligned region with
/// blocks of one alignment unit is accepted, and a byte less is refused.
fn least_regions(group: &mut Group, tally: &mut Tally) {
    const BEGIN: u32 = 0x2007_0000;
    for alignment in ALIGNMENTS {
        for local_blocks in 1..=MOST_BLOCKS {
            for remote_blocks in 1..=MOST_BLOCKS {
                let a = i64::from(alignment);
                let blocks = i64::from(local_blocks);
                let ring = ring_minimum(blocks, i64::from(remote_blocks), a);
                let size = round_up(ring + blocks * a, a);
                let end = BEGIN + u32::try_from(size).expect("a region of some KiB");

                let accepted = Stated::Layout {
                    block_size: alignment,
                    blocks_begin: Some(end - local_blocks * alignment),
                };
                for (begin, end, stated) in [
                    (BEGIN, end, &accepted),
                    (BEGIN, end - 1, &Stated::Refusal(4)),
                    (BEGIN + 1, end, &Stated::Refusal(4)),
                ] {
                    let request = Request {
                        begin,
                        end,
                        local_blocks,
                        remote_blocks,
                        alignment,
                    };
                    let outcomes = compare(group, tally, &request);
                    check_stated(group, &request, stated, outcomes);
                }
            }
        }
    }
}

/// Answers of every length from 0 to 8.
fn answer_lengths(group: &mut Group, tally: &mut Tally, seed: u64) {
    const REQUESTS: usize = 2000;
    let mut random = Random::new(seed, 0);
    for _ in 0..REQUESTS {
        for (_, mixture) in MIXTURES {
            let request = mixture(&mut random);
            for length in 0..=LONGEST_ANSWER {
                for pattern in [0, PATTERN, u32::MAX] {
                    compare_answer(group, tally, &request, length, pattern);
                }
            }
        }
    }
}

/// The first elements of the answer are the values; all else in it and around
/// it stays as it was.
fn compare_answer(
    group: &mut Group,
    tally: &mut Tally,
    request: &Request,
    length: usize,
    pattern: u32,
) {
    let second = Outcome::second(request);
    let mut answer = Twin::new(&vec![pattern; length]);
    let [second_answer, proved_answer] = answer.lend();
    for (element, value) in second_answer.iter_mut().zip(second.values) {
        *element = value;
    }
    let refusal = proved::layout(request, proved_answer);

    group.input();
    tally.count(second.refusal);
    if refusal != second.refusal || !answer.same() {
        group.mismatch(|| {
            format!(
                "{request}, answer of {length} elements, all {pattern:#x}\n  \
                 second: {second}\n  proved: {}\n  answer: {}",
                outcome_name(refusal),
                answer.difference()
            )
        });
    }
}
