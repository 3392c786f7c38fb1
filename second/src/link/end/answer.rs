//! What comes of a call.

use std::ops::Range;

use super::control::CONTROL;
use crate::link::refusal::Refusal;

/// What a call answers beside its number.
#[derive(Default)]
pub struct Answer {
    pub given: Given,
    /// A room or a view, counted from the first lent byte.
    pub place: Range<usize>,
    pub written: Vec<Written>,
}

impl Answer {
    pub fn giving(given: Given) -> Self {
        Answer {
            given,
            ..Answer::default()
        }
    }
}

/// What is given with an answer.
#[derive(Clone, Copy, Default)]
pub enum Given {
    #[default]
    Nothing,
    /// Of a ring call's content; 0 if it is refused.
    Length(u32),
    /// Unread bytes that went with a broken packet; the length is 0.
    Dropped(u32),
    /// The blocks of a reservation.
    Run { start: u32, count: u32 },
    /// A control message: pushed already, but for the reply to a binding that
    /// arrives.
    Control([u8; CONTROL]),
    /// A data message that has arrived.
    Delivery { address: u8, start: u32, k: u32 },
}

impl Given {
    pub fn values(&self) -> Vec<u32> {
        match *self {
            Given::Nothing => Vec::new(),
            Given::Length(length) => vec![length],
            Given::Dropped(bytes) => vec![0, bytes],
            Given::Run { start, count } => vec![start, count],
            Given::Control(bytes) => bytes.map(u32::from).to_vec(),
            Given::Delivery { address, start, k } => vec![address.into(), start, k],
        }
    }

    /// How a row says which of them it is, as values can be alike.
    pub fn number(&self) -> u32 {
        match self {
            Given::Nothing => 0,
            Given::Length(_) | Given::Dropped(_) => 1,
            Given::Run { .. } => 2,
            Given::Control(_) => 3,
            Given::Delivery { .. } => 4,
        }
    }

    /// A delivery of the same values in place of control bytes: what planted
    /// faults give.
    pub fn as_delivery(self) -> Self {
        match self {
            Given::Control([kind, address, start]) => Given::Delivery {
                address: kind,
                start: address.into(),
                k: start.into(),
            },
            other => other,
        }
    }
}

/// The slices that calls write to.
#[derive(Clone, Copy, PartialEq, Eq)]
pub enum Slice {
    Transmit,
    Receive,
    Buffer,
}

/// Bytes that a call wrote.
pub struct Written {
    pub slice: Slice,
    pub range: Range<usize>,
}

/// A refused call. All but a pull of a broken packet have nothing to answer.
pub struct Refused {
    pub refusal: Refusal,
    pub answer: Answer,
}

impl From<Refusal> for Refused {
    fn from(refusal: Refusal) -> Self {
        Refused {
            refusal,
            answer: Answer::default(),
        }
    }
}

impl Refused {
    /// With this given, if nothing is.
    pub fn giving(mut self, given: Given) -> Self {
        if let Given::Nothing = self.answer.given {
            self.answer.given = given;
        }
        self
    }
}

/// What a call comes to; number 0 is an accepted one.
pub struct Outcome {
    pub number: u32,
    pub answer: Answer,
}

impl Outcome {
    pub fn new(result: Result<Answer, Refusal>) -> Self {
        result.map_err(Refused::from).into()
    }
}

impl From<Result<Answer, Refused>> for Outcome {
    fn from(result: Result<Answer, Refused>) -> Self {
        match result {
            Ok(answer) => Outcome { number: 0, answer },
            Err(Refused { refusal, answer }) => Outcome {
                number: refusal as u32,
                answer,
            },
        }
    }
}
