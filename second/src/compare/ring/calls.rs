//! One start, push or pull, asked of both implementations.

use std::fmt::{self, Display, Formatter};

use crate::compare::proved;
use crate::compare::report::Group;
use crate::compare::tally::Tally;
use crate::compare::twin::{Twin, PATTERN};
use crate::link::layout::Request;
use crate::link::outcome::Outcome;
use crate::link::refusal::outcome_name;
use crate::link::ring::{self, Ring};

/// What a call is asked with, but for the lent memory. A start has no own index
/// before it: 0.
#[derive(Clone, Copy)]
pub struct Call<R = Request> {
    pub request: R,
    pub own_index: u32,
    pub answer_length: usize,
    /// What is known of the outcome beforehand.
    pub stated: Option<Outcome>,
}

#[derive(Default)]
pub struct Tallies {
    pub start: Tally,
    pub push: Tally,
    pub pull: Tally,
}

/// The calls of one group.
pub struct Calls<'a, 'g> {
    pub group: &'a mut Group<'g>,
    pub tallies: &'a mut Tallies,
}

impl Calls<'_, '_> {
    /// Gives the second implementation's outcome; the proved one's must be the
    /// same.
    pub fn start(&mut self, call: &Call, region: &mut Twin<u8>) -> Outcome {
        let mut answer = Twin::new(&vec![PATTERN; call.answer_length]);
        let [second_answer, proved_answer] = answer.lend();
        let [second_region, proved_region] = region.lend();

        let result = ring::start(&call.request, second_region);
        let second = Outcome::of(call.own_index, result);
        second.write(second_answer);
        let proved = proved::start(&call.request, proved_region, proved_answer);

        self.tallies.start.count(second.refusal);
        self.compare(Made {
            call,
            action: Action::Start,
            second,
            proved,
            answer,
            region,
            buffer: None,
        });
        second
    }

    /// Gives what `start` gives.
    pub fn push(&mut self, call: &Call, region: &mut Twin<u8>, content: &[u8]) -> Outcome {
        let mut answer = Twin::new(&vec![PATTERN; call.answer_length]);
        let [second_answer, proved_answer] = answer.lend();
        let [second_region, proved_region] = region.lend();

        let result = ring::push(&call.request, call.own_index, second_region, content);
        let second = Outcome::of(call.own_index, result);
        second.write(second_answer);
        let proved = proved::push(
            &call.request,
            call.own_index,
            proved_region,
            content,
            proved_answer,
        );

        self.tallies.push.count(second.refusal);
        self.compare(Made {
            call,
            action: Action::Push(content.len()),
            second,
            proved,
            answer,
            region,
            buffer: None,
        });
        second
    }

    /// Gives what `start` gives.
    pub fn pull(&mut self, call: &Call, region: &mut Twin<u8>, buffer: &mut Twin<u8>) -> Outcome {
        let mut answer = Twin::new(&vec![PATTERN; call.answer_length]);
        let [second_answer, proved_answer] = answer.lend();
        let [second_region, proved_region] = region.lend();
        let [second_buffer, proved_buffer] = buffer.lend();

        let result = ring::pull(&call.request, call.own_index, second_region, second_buffer);
        let second = Outcome::of(call.own_index, result);
        second.write(second_answer);
        let proved = proved::pull(
            &call.request,
            call.own_index,
            proved_region,
            proved_buffer,
            proved_answer,
        );

        self.tallies.pull.count(second.refusal);
        self.compare(Made {
            call,
            action: Action::Pull(buffer.second().len()),
            second,
            proved,
            answer,
            region,
            buffer: Some(buffer),
        });
        second
    }

    fn compare(&mut self, made: Made) {
        self.group.input();
        if made.alike() && made.as_stated() {
            return;
        }
        self.group.mismatch(|| made.to_string());
        // One difference is not to cause more in the calls that follow.
        made.region.rejoin();
    }
}

/// A call and what it is given, in bytes.
enum Action {
    Start,
    Push(usize),
    Pull(usize),
}

/// A call that both implementations have answered.
struct Made<'a> {
    call: &'a Call,
    action: Action,
    second: Outcome,
    proved: u32,
    answer: Twin<u32>,
    region: &'a mut Twin<u8>,
    buffer: Option<&'a Twin<u8>>,
}

impl Made<'_> {
    fn alike(&self) -> bool {
        self.proved == self.second.refusal
            && self.answer.same()
            && self.region.same()
            && self.buffer.is_none_or(Twin::same)
    }

    fn as_stated(&self) -> bool {
        self.call.stated.is_none_or(|stated| stated == self.second)
    }
}

impl Display for Made<'_> {
    fn fmt(&self, f: &mut Formatter) -> fmt::Result {
        let Call {
            request,
            own_index,
            answer_length,
            stated,
        } = self.call;
        match self.action {
            Action::Start => write!(f, "start")?,
            Action::Push(length) => write!(f, "push of {length} bytes")?,
            Action::Pull(length) => write!(f, "pull into {length} bytes")?,
        }
        let mut region = self.region.second().to_vec();
        writeln!(
            f,
            ", own index {own_index}, {request}, {} bytes lent, answer of {answer_length} elements",
            region.len()
        )?;
        if let Ok(ring) = Ring::find(request, &mut region) {
            writeln!(
                f,
                "  afterwards: read index {}, write index {}, {} data bytes",
                u32::from_le_bytes(*ring.read_index),
                u32::from_le_bytes(*ring.write_index),
                ring.data.len()
            )?;
        }
        if let Some(stated) = stated {
            writeln!(f, "  stated: {stated}")?;
        }
        writeln!(f, "  second: {}", self.second)?;
        writeln!(f, "  proved: {}", outcome_name(self.proved))?;
        writeln!(f, "  answer: {}", self.answer.difference())?;
        write!(f, "  region: {}", self.region.difference())?;
        match self.buffer {
            Some(buffer) => write!(f, "\n  buffer: {}", buffer.difference()),
            None => Ok(()),
        }
    }
}
