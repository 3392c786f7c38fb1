//! A record of a script in words.

use std::fmt::{self, Display, Formatter};

use super::words::{content, hex, text, text_or_hex};
use crate::link::end::Slice;
use crate::link::script::Record;

/// Bytes of a body that are shown.
const SHOWN: usize = 40;

impl Display for Record<'_> {
    fn fmt(&self, f: &mut Formatter) -> fmt::Result {
        match self {
            Record::Arrival(bytes) => write!(f, "arrival {}", said(bytes)),
            Record::Register(name) => write!(f, "register {}", text(name, SHOWN)),
            Record::Reserve { k } => write!(f, "reserve {k} bytes"),
            Record::Send { start, address, k } => {
                write!(f, "send start {start}, address {address}, K {k}")
            }
            Record::Drop { start } => write!(f, "drop start {start}"),
            Record::Done { start } => write!(f, "done with start {start}"),
            Record::Push(bytes) => write!(f, "push {}", said(bytes)),
            Record::Start => write!(f, "start"),
            Record::Pull { buffer_length } => write!(f, "pull into {buffer_length} bytes"),
            Record::Room { start } => write!(f, "room of start {start}"),
            Record::View { start } => write!(f, "view of start {start}"),
            Record::RoomQuestion { start, length } => {
                write!(f, "room question, start {start}, {length} bytes")
            }
            Record::ViewQuestion { start, length } => {
                write!(f, "view question, start {start}, {length} bytes")
            }
            Record::Write {
                slice,
                offset,
                bytes,
            } => {
                let slice = match slice {
                    Slice::Receive => "receive",
                    _ => "transmit",
                };
                let shown = text_or_hex(bytes, SHOWN);
                write!(f, "write {slice} bytes at {offset}: {shown}")?;
                shown_length(f, bytes)
            }
            Record::Lend { transmit, receive } => {
                write!(f, "lend {transmit} transmit and {receive} receive bytes")
            }
        }
    }
}

/// A content and what it says.
fn said(bytes: &[u8]) -> String {
    if bytes.is_empty() {
        return format!("of no bytes ({})", content(bytes));
    }
    let shown = hex(bytes, SHOWN);
    format!("{shown} ({})", content(bytes))
}

fn shown_length(f: &mut Formatter, bytes: &[u8]) -> fmt::Result {
    if bytes.len() > SHOWN {
        write!(f, " ({} bytes)", bytes.len())?;
    }
    Ok(())
}
