//! The calls of sheets that are compared, and counted.

use std::fmt::Write;
use std::ops::Range;

use crate::compare::plan;
use crate::compare::proved;
use crate::compare::report::Group;
use crate::compare::tally::{check_least, Tally};
use crate::compare::twin::{Twin, PATTERN};
use crate::compare::Opponent;
use crate::link::fault;
use crate::link::outcome;
use crate::link::refusal::outcome_name;
use crate::link::sheet::{self, Answer, Flaw, Index, Which, ANSWER, FIRST_GROUP, HEADER};

/// The numbers that a pick can come to.
const NUMBERS: [u32; 5] = [0, 27, 28, 29, 30];

/// What must come of a call: the number, and the whole answer.
pub type Stated = (u32, [u32; ANSWER]);

/// The answer of a refusal.
pub const NOTHING: [u32; ANSWER] = [0; ANSWER];

/// What a call is lent to read.
pub struct Asked {
    memory: Twin<u8>,
    /// Hand-set sheet, incoming sheet and path. An empty one may be anywhere.
    parts: [Range<usize>; 3],
}

impl Asked {
    /// Apart from each other, with bytes between them that are in none.
    pub fn apart(hand: &[u8], incoming: &[u8], path: &[u8]) -> Self {
        const GAP: [u8; 16] = [0xA5; 16];
        let memory = [hand, &GAP, incoming, &GAP, path].concat();
        let second = hand.len() + GAP.len();
        let third = second + incoming.len() + GAP.len();
        let parts = [
            0..hand.len(),
            second..second + incoming.len(),
            third..memory.len(),
        ];
        Asked::inside(&memory, parts)
    }

    /// Parts of one memory, which may overlap.
    pub fn inside(memory: &[u8], parts: [Range<usize>; 3]) -> Self {
        Asked {
            memory: Twin::new(memory),
            parts,
        }
    }

    /// Hand-set sheet, incoming sheet and path.
    fn slices(&self) -> [&[u8]; 3] {
        slices(self.memory.second(), &self.parts)
    }
}

fn slices<'a>(memory: &'a [u8], parts: &[Range<usize>; 3]) -> [&'a [u8]; 3] {
    parts.each_ref().map(|part| {
        if part.is_empty() {
            &[]
        } else {
            &memory[part.clone()]
        }
    })
}

#[derive(Default)]
pub struct Tallies {
    numbers: Tally,
    /// What was found, by sheet; in each a value or a group, with bytes or empty.
    found: [[[u64; 2]; 2]; 2],
    /// What was wrong with the malformed sheet, by sheet.
    flaws: [[u64; Flaw::ALL.len()]; 2],
}

pub type Calls = plan::Calls<Tallies>;

impl Calls {
    /// A pick. What must come of it may be stated.
    pub fn make(&mut self, mut asked: Asked, answer_length: usize, stated: Option<Stated>) {
        let mut answer = Twin::new(&vec![PATTERN; answer_length]);
        let [second_answer, other_answer] = answer.lend();
        let [second_memory, other_memory] = asked.memory.lend();
        let parts = &asked.parts;
        let second = self::second(second_memory, parts, second_answer);
        let other = match self.opponent {
            Opponent::Proved => proved::pick(other_memory, parts, other_answer),
            Opponent::Planted(fault) => fault::with(fault, || {
                self::second(other_memory, parts, other_answer).refusal
            }),
        };

        let picked = (second.refusal, second.part.values());
        self.made += 1;
        self.tallies.count(&second, &asked);
        let alike = second.refusal == other && answer.same() && asked.memory.same();
        let as_stated = stated.is_none_or(|stated| stated == picked);
        if alike && as_stated && is_in_place(&second, &asked) {
            return;
        }
        let name = self.opponent.name();
        self.differ(|| {
            let [hand, incoming, path] = asked.slices().map(shown);
            let stated = stated.map(|stated| format!("\n  stated: {}", in_words(stated)));
            format!(
                "pick, answer of {answer_length} elements\n  hand-set: {hand}\n  \
                 incoming: {incoming}\n  path: {path}{}\n  second: {}\n  {name}: {}\n  \
                 answer: {}\n  memory: {}",
                stated.unwrap_or_default(),
                in_words(picked),
                outcome_name(other),
                answer.difference(),
                asked.memory.difference()
            )
        });
    }
}

impl Tallies {
    fn count(&mut self, Answer { refusal, part }: &Answer, asked: &Asked) {
        self.numbers.count(*refusal);
        let [hand, incoming, path] = asked.slices();
        // Reading it once more says what is wrong with it.
        let mut count_flaw = |which: Which, sheet| {
            if let Err(flaw) = Index::read(sheet) {
                self.flaws[which as usize][flaw as usize] += 1;
            }
        };
        match refusal {
            0 => {
                let is_group = path.last().is_some_and(|&tag| tag >= FIRST_GROUP);
                let is_empty = part.size == 0;
                let found = &mut self.found[part.which as usize];
                found[usize::from(is_group)][usize::from(is_empty)] += 1;
            }
            28 => count_flaw(Which::HandSet, hand),
            29 => count_flaw(Which::Incoming, incoming),
            _ => {}
        }
    }
}

impl plan::Tallies for Tallies {
    /// Also what was found, and each flaw of a malformed sheet.
    fn check(&self, group: &mut Group) {
        let Tallies {
            numbers,
            found,
            flaws,
        } = self;
        numbers.check(group, "sheet", &NUMBERS);
        numbers.check_no_other(group, "sheet", &NUMBERS);
        for (sheet, (found, flaws)) in ["hand-set", "incoming"].iter().zip(found.iter().zip(flaws))
        {
            let mut check = |outcome: &str, occurrences: u64| {
                println!("sheet outcomes: {sheet}, {outcome:<50} {occurrences:>10}");
                check_least(group, &format!("sheet: {sheet}, {outcome}"), occurrences);
            };
            let [[value, empty_value], [whole_group, empty_group]] = *found;
            check("a value", value);
            check("an empty value", empty_value);
            check("a group", whole_group);
            check("an empty group", empty_group);
            for (flaw, &occurrences) in Flaw::ALL.iter().zip(flaws) {
                check(flaw.sentence(), occurrences);
            }
        }
    }
}

fn second(memory: &[u8], parts: &[Range<usize>; 3], answer: &mut [u32]) -> Answer {
    let [hand, incoming, path] = slices(memory, parts);
    let picked = sheet::answer(hand, incoming, path);
    outcome::write(&picked.part.values(), answer);
    picked
}

/// True if what was found is the whole value of a field with the path's last
/// tag.
fn is_in_place(Answer { refusal, part }: &Answer, asked: &Asked) -> bool {
    let [hand, incoming, path] = asked.slices();
    let sheet = [hand, incoming][part.which as usize];
    let header = part.begin.checked_sub(HEADER);
    let field = header.and_then(|header| sheet.get(header..part.begin + part.size));
    let is_value =
        |field: &[u8]| path.last() == field.first() && usize::from(field[1]) == part.size;
    *refusal != 0 || field.is_some_and(is_value)
}

fn in_words((number, answer): Stated) -> String {
    format!("{}, answer {answer:?}", outcome_name(number))
}

/// Bytes in words; of many, the first ones.
fn shown(bytes: &[u8]) -> String {
    const MOST: usize = 64;
    let mut text = format!("{} bytes:", bytes.len());
    for byte in bytes.iter().take(MOST) {
        let _ = write!(text, " {byte:02x}");
    }
    if bytes.len() > MOST {
        text += " ..";
    }
    text
}
