//! Calls on the least region, with every byte stated beforehand.

use super::calls::Calls;
use super::side::Action;
use crate::compare::random::{Pool, Random};
use crate::compare::ring::calls::Call;
use crate::compare::twin::Twin;
use crate::link::outcome::{Outcome, ANSWER};
use crate::link::unit::Plain;

/// Alignment 4: two indexes, and 24 data bytes.
const LEAST: Plain = Plain {
    begin: 0x2007_0000,
    end: 0x2007_0020,
    alignment: 4,
};

type Region = [u8; 32];

/// What the region holds before the first call.
const BEFORE: Region = [0xEE; 32];

/// Behind a start. The 20 bytes of its packet are "Em1l1K0rn3li4" with the
/// length before it and three zeros behind.
#[rustfmt::skip]
const STARTED: Region = [
    0x00, 0x00, 0x00, 0x00, 0x14, 0x00, 0x00, 0x00,
    0x00, 0x0D, 0x00, 0x00, 0x45, 0x6D, 0x31, 0x6C, 0x31, 0x4B, 0x30, 0x72,
    0x6E, 0x33, 0x6C, 0x69, 0x34, 0x00, 0x00, 0x00, 0xEE, 0xEE, 0xEE, 0xEE,
];

/// When it has been received.
const RECEIVED: Region = with_read_index(STARTED, 20);

/// With "abc" pushed at 20, whose packet wraps.
#[rustfmt::skip]
const PUSHED: Region = [
    0x14, 0x00, 0x00, 0x00, 0x04, 0x00, 0x00, 0x00,
    0x61, 0x62, 0x63, 0x00, 0x45, 0x6D, 0x31, 0x6C, 0x31, 0x4B, 0x30, 0x72,
    0x6E, 0x33, 0x6C, 0x69, 0x34, 0x00, 0x00, 0x00, 0x00, 0x03, 0x00, 0x00,
];

/// When that has been received.
const EMPTY: Region = with_read_index(PUSHED, 4);

const fn with_read_index(mut region: Region, index: u8) -> Region {
    region[0] = index;
    region
}

/// A call, its own index, number and answer, and what region and buffer hold
/// afterwards. Before, the buffer is as many question marks.
struct Step {
    action: Action<'static>,
    own_index: u32,
    number: u32,
    answer: [u32; ANSWER],
    region: Region,
    buffer: &'static [u8],
}

const fn step(
    action: Action<'static>,
    [own_index, number]: [u32; 2],
    answer: [u32; ANSWER],
    region: Region,
    buffer: &'static [u8],
) -> Step {
    Step {
        action,
        own_index,
        number,
        answer,
        region,
        buffer,
    }
}

#[rustfmt::skip]
const STEPS: [Step; 9] = [
    step(Action::Start, [0, 0], [13, 20, 0], STARTED, b""),
    step(Action::Push(b""), [20, 10], [0, 20, 0], STARTED, b""),
    step(Action::Receive, [0, 26], [0, 0, 0], STARTED, b"????????????"),
    step(Action::Receive, [0, 0], [13, 20, 0], RECEIVED, b"Em1l1K0rn3li4?"),
    step(Action::Receive, [20, 8], [0, 20, 0], RECEIVED, b""),
    step(Action::Push(b"abc"), [20, 0], [3, 4, 0], PUSHED, b""),
    step(Action::Receive, [20, 26], [0, 20, 0], PUSHED, b"??"),
    step(Action::Receive, [20, 0], [3, 4, 0], EMPTY, b"abc"),
    step(Action::Receive, [4, 8], [0, 4, 0], EMPTY, b"???"),
];

pub fn least_region(calls: &mut Calls, _: &mut Random, _: &Pool) {
    let mut region = Twin::new(&BEFORE);
    for step in STEPS {
        let call = Call {
            request: LEAST,
            own_index: step.own_index,
            answer_length: ANSWER,
            stated: Some(Outcome::new(step.number, step.answer)),
        };
        let mut buffer = Twin::new(&vec![b'?'; step.buffer.len()]);
        calls.make(&call, step.action, &mut region, &mut buffer);
        if region.second() != step.region || buffer.second() != step.buffer {
            calls.differ(|| {
                let (region, buffer) = (region.second(), buffer.second());
                format!("a step of the bench left\n  region {region:02x?}\n  buffer {buffer:02x?}")
            });
        }
    }
}
