//! The calls of units that are compared, counted, and what was found different.

use super::side::{Action, Lent, Side};
use crate::compare::plan;
use crate::compare::report::Group;
use crate::compare::ring::calls::Call;
use crate::compare::tally::Tally;
use crate::compare::twin::{Twin, PATTERN};
use crate::link::outcome::ANSWER;
use crate::link::refusal::outcome_name;
use crate::link::unit::{Opening, Plain};

/// The numbers that each call can come to.
const OPEN: [u32; 5] = [0, 1, 3, 4, 5];
const START: [u32; 5] = [0, 1, 3, 4, 6];
const PUSH: [u32; 8] = [0, 1, 3, 4, 6, 7, 10, 11];
const RECEIVE: [u32; 9] = [0, 1, 3, 4, 6, 7, 8, 9, 26];

#[derive(Default)]
pub struct Tallies {
    open: Tally,
    start: Tally,
    push: Tally,
    receive: Tally,
}

pub type Calls = plan::Calls<Tallies>;

impl Calls {
    /// An opening. What must come of it may be stated.
    pub fn open(&mut self, opening: &Opening, stated: Option<u32>) {
        let second = Side::Second.open(opening);
        let other = Side::Other(self.opponent).open(opening);
        self.made += 1;
        self.tallies.open.count(second);
        if second != other || stated.is_some_and(|stated| stated != second) {
            let name = self.opponent.name();
            self.differ(|| {
                let stated = stated.map(|stated| format!("\n  stated: {}", outcome_name(stated)));
                format!(
                    "open, transmit {}, receive {}{}\n  second: {}\n  {name}: {}",
                    opening.transmit(),
                    opening.receive(),
                    stated.unwrap_or_default(),
                    outcome_name(second),
                    outcome_name(other)
                )
            });
        }
    }

    /// A call on a region that both sides have a copy of. Only a receive is
    /// lent the buffer.
    pub fn make(
        &mut self,
        call: &Call<Plain>,
        action: Action,
        region: &mut Twin<u8>,
        buffer: &mut Twin<u8>,
    ) {
        let mut answer = Twin::new(&vec![PATTERN; call.answer_length]);
        let [second_answer, other_answer] = answer.lend();
        let [second_region, other_region] = region.lend();
        let [second_buffer, other_buffer] = buffer.lend();
        let second = Lent {
            region: second_region,
            buffer: second_buffer,
            answer: second_answer,
        };
        let other = Lent {
            region: other_region,
            buffer: other_buffer,
            answer: other_answer,
        };
        let numbers = [
            Side::Second.call(call, action, second),
            Side::Other(self.opponent).call(call, action, other),
        ];

        self.count(action, numbers[0]);
        let alike = answer.same() && region.same() && buffer.same();
        if numbers[0] == numbers[1] && alike && as_stated(call, numbers[0], answer.second()) {
            return;
        }
        let name = self.opponent.name();
        self.differ(|| {
            let lengths = [region.second().len(), buffer.second().len()];
            let [second, other] = numbers.map(outcome_name);
            format!(
                "{}\n  second: {second}\n  {name}: {other}\n  answer: {}\n  region: {}\n  buffer: {}",
                describe(call, action, lengths),
                answer.difference(),
                region.difference(),
                buffer.difference()
            )
        });
        // One difference is not to cause more in the calls that follow.
        region.rejoin();
    }

    /// Counts a call by its number.
    pub fn count(&mut self, action: Action, number: u32) {
        self.made += 1;
        let tally = match action {
            Action::Start => &mut self.tallies.start,
            Action::Push(_) => &mut self.tallies.push,
            Action::Receive => &mut self.tallies.receive,
        };
        tally.count(number);
    }
}

impl plan::Tallies for Tallies {
    fn check(&self, group: &mut Group) {
        let Tallies {
            open,
            start,
            push,
            receive,
        } = self;
        for (tally, call, numbers) in [
            (open, "unit open", &OPEN[..]),
            (start, "unit start", &START),
            (push, "unit push", &PUSH),
            (receive, "unit receive", &RECEIVE),
        ] {
            tally.check(group, call, numbers);
            tally.check_no_other(group, call, numbers);
        }
    }
}

/// True if number and answer are what was stated, or nothing was.
fn as_stated(call: &Call<Plain>, number: u32, answer: &[u32]) -> bool {
    let Some(stated) = call.stated else {
        return true;
    };
    let values = stated.values();
    let told = call.answer_length.min(ANSWER);
    number == stated.refusal && answer[..told] == values[..told]
}

/// A call in words; the lengths are those of the lent slice and of the buffer.
pub fn describe(call: &Call<Plain>, action: Action, [lent, buffer]: [usize; 2]) -> String {
    let what = match action {
        Action::Start => "unit start".to_string(),
        Action::Push(content) => format!("unit push of {} bytes", content.len()),
        Action::Receive => format!("unit receive into {buffer} bytes"),
    };
    let Call {
        request,
        own_index,
        answer_length,
        stated,
    } = call;
    let stated = stated.map(|stated| format!("\n  stated: {stated}"));
    format!(
        "{what}, own index {own_index}, {request}, {lent} bytes lent, answer of {answer_length} \
         elements{}",
        stated.unwrap_or_default()
    )
}
