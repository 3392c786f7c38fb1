//! Runs call scripts on the second implementation.

use super::reading::Stop;
use super::record::Record;
use super::row::{Row, ROW_BYTES};
use crate::link::end::{Answer, Control, ControlKind, End, Given, Open, Opening, Outcome, Slice};
use crate::link::fault::{planted, Fault};
use crate::link::refusal::Refusal;

/// The slices that a script works on.
pub struct Memory<'a> {
    pub transmit: &'a mut [u8],
    pub receive: &'a mut [u8],
    pub buffer: &'a mut [u8],
}

impl Memory<'_> {
    /// Writes what the slice has of it.
    fn write(&mut self, slice: Slice, offset: u32, bytes: &[u8]) {
        let slice = match slice {
            Slice::Transmit => &mut *self.transmit,
            Slice::Receive => &mut *self.receive,
            Slice::Buffer => &mut *self.buffer,
        };
        let offset = offset as usize;
        if planted(Fault::WriteAllOrNothing) && offset + bytes.len() > slice.len() {
            return;
        }
        for (place, byte) in slice.iter_mut().skip(offset).zip(bytes) {
            *place = *byte;
        }
    }
}

/// An end that a script opened, and how much its calls are lent.
pub struct Player {
    pub end: End,
    transmit_lent: u32,
    pub receive_lent: u32,
}

impl Player {
    pub fn open(opening: &Opening) -> (Self, Outcome) {
        let (end, outcome) = End::open(opening);
        let player = Player {
            end,
            // A closed end has no use for what it is lent.
            transmit_lent: opening.transmit_end.saturating_sub(opening.transmit_begin),
            receive_lent: opening.receive_end.saturating_sub(opening.receive_begin),
        };
        (player, outcome)
    }

    pub fn play(&mut self, record: &Record, memory: &mut Memory) -> Outcome {
        let end = &mut self.end;
        let transmit = first(memory.transmit, self.transmit_lent);
        let receive = first(memory.receive, self.receive_lent);
        match *record {
            Record::Arrival(control) => end.call(|open| arrival(open, transmit, receive, control)),
            Record::Register(name) => end.call(|open| open.register(transmit, name)),
            Record::Reserve { k } => end.call(|open| open.reserve(k)),
            Record::Send { start, address, k } => {
                let outcome = end.call(|open| open.send(transmit, start, address, k));
                sent(
                    outcome,
                    Control::new(ControlKind::Data, address as u8, start),
                )
            }
            Record::Drop { start } => end.call(|open| open.drop_reservation(start)),
            Record::Done { start } => end.call(|open| open.done(transmit, start)),
            Record::Push(content) => end.ring_call(|open| open.push(transmit, content)),
            Record::Start => end.ring_call(|open| open.start(transmit)),
            Record::Pull { buffer_length } => {
                let buffer = first(memory.buffer, buffer_length.into());
                end.pull_call(|open| open.pull(receive, buffer))
            }
            Record::Room { start } => end.call(|open| open.room(transmit, start)),
            Record::View { start } => end.call(|open| open.view(receive, start)),
            Record::RoomQuestion { start, length } => {
                end.call(|open| open.room_question(length, start))
            }
            Record::ViewQuestion { start, length } => {
                end.call(|open| open.view_question(length, start))
            }
            Record::Write {
                slice,
                offset,
                bytes,
            } => {
                memory.write(slice, offset, bytes);
                Outcome::new(Ok(Answer::default()))
            }
            Record::Lend { transmit, receive } => {
                self.transmit_lent = transmit;
                self.receive_lent = receive;
                Outcome::new(Ok(Answer::default()))
            }
        }
    }

    fn row(&self, outcome: &Outcome, memory: &Memory) -> Row {
        let slices = [&*memory.transmit, &*memory.receive, &*memory.buffer];
        Row::new(outcome, self.end.free_blocks(), slices)
    }
}

/// An arrival. It is not lent the transmit bytes, which planted faults use.
fn arrival(
    open: &mut Open,
    transmit: &mut [u8],
    receive: &[u8],
    control: &[u8],
) -> Result<Answer, Refusal> {
    if planted(Fault::HeaderDecides) {
        open.trust_headers(transmit);
    }
    let answer = open.arrival(receive, control)?;
    match answer.given {
        Given::Control(reply) if planted(Fault::ReplyPushed) => {
            // If the ring refuses it, the caller still has it.
            let _ = open.push(transmit, &reply);
        }
        _ => {}
    }
    Ok(answer)
}

/// What comes of a send. A planted fault gives its control message though the
/// ring refuses it.
fn sent(mut outcome: Outcome, control: Control) -> Outcome {
    let by_ring = [Refusal::BadIndex as u32, Refusal::Full as u32];
    if by_ring.contains(&outcome.number) && planted(Fault::RefusedSendGives) {
        outcome.answer.given = Given::Control(control.bytes());
    }
    outcome
}

/// That many first bytes, or all if there are fewer.
fn first(slice: &mut [u8], length: u32) -> &mut [u8] {
    let length = slice.len().min(length as usize);
    &mut slice[..length]
}

/// What a run came to.
#[derive(Clone, Copy)]
pub struct Ran {
    /// Bytes of the rows.
    pub written: usize,
    /// Where in the script it ended.
    pub at: usize,
    /// Why, if that is before the script's end.
    pub stop: Option<Stop>,
}

/// Runs a script on this memory and writes a row for its opening and for each
/// record to `out`. It stops before a record that is not whole, not good or
/// whose row does not fit.
pub fn run(script: &[u8], mut memory: Memory, out: &mut [u8]) -> Ran {
    let mut ran = Ran {
        written: 0,
        at: 0,
        stop: None,
    };
    let (opening, mut records) = match Opening::decode(script) {
        Ok(decoded) => decoded,
        Err(stop) => {
            ran.stop = Some(stop);
            return ran;
        }
    };
    let (mut player, outcome) = Player::open(&opening);
    ran.put(out, || player.row(&outcome, &memory));
    while ran.stop.is_none() {
        ran.at = records.at;
        let Some(record) = records.next() else {
            ran.stop = records.stop();
            return ran;
        };
        ran.put(out, || {
            let outcome = player.play(&record, &mut memory);
            player.row(&outcome, &memory)
        });
    }
    ran
}

impl Ran {
    /// Makes the next row, if it fits.
    fn put(&mut self, out: &mut [u8], row: impl FnOnce() -> Row) {
        let left = &mut out[self.written..];
        match left.split_first_chunk_mut() {
            Some((place, _)) => {
                *place = row().to_bytes();
                self.written += ROW_BYTES;
            }
            None => self.stop = Some(Stop::Output { left: left.len() }),
        }
    }
}
