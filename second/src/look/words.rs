//! Bytes, regions, control messages and outcomes in words.

use std::fmt::{self, Display, Formatter};

use crate::link::end::Control;
use crate::link::layout::Request;
use crate::link::refusal::Refusal;
use crate::link::ring::is_start;
use crate::link::unit::Plain;

/// Bytes as text, in quotes; what is not printable is escaped. Of many the
/// first are shown.
pub fn text(bytes: &[u8], most: usize) -> String {
    let shown = &bytes[..bytes.len().min(most)];
    let more = if bytes.len() > most { ".." } else { "" };
    format!("\"{}\"{more}", shown.escape_ascii())
}

/// Bytes as two digits each; of many the first.
pub fn hex(bytes: &[u8], most: usize) -> String {
    let shown = bytes.iter().take(most).map(|byte| format!("{byte:02x}"));
    let more = (bytes.len() > most).then(|| "..".to_string());
    shown.chain(more).collect::<Vec<_>>().join(" ")
}

/// Text where it can be read as such, else digits; zeros may end a text.
pub fn text_or_hex(bytes: &[u8], most: usize) -> String {
    let is_zero = |byte: &&u8| **byte == 0;
    let zeros = bytes.iter().rev().take_while(is_zero).count();
    let readable = &bytes[..bytes.len() - zeros];
    let is_text = |byte: &u8| byte.is_ascii_graphic() || byte.is_ascii_whitespace();
    match bytes {
        [] => "no bytes".to_string(),
        _ if readable.is_empty() || !readable.iter().all(is_text) => hex(bytes, most),
        _ => text(bytes, most),
    }
}

/// What a number comes to: accepted, or refused and why.
pub fn outcome(number: u32) -> String {
    if number == 0 {
        return "accepted".to_string();
    }
    let mut refusals = Refusal::ALL.iter();
    match refusals.find(|&&refusal| refusal as u32 == number) {
        Some(&refusal) => refused(refusal),
        None => format!("refused with {number}, which is no refusal's number"),
    }
}

pub fn refused(refusal: Refusal) -> String {
    format!("refused with {}: {}", refusal as u32, refusal.sentence())
}

/// What the content of a packet says to an end that takes it for a control
/// message.
pub fn content(bytes: &[u8]) -> String {
    if is_start(bytes) {
        return "start packet".to_string();
    }
    match Control::read(bytes) {
        Ok(control) => self::control(control),
        Err(Refusal::UnknownKind) => format!("unknown kind {}", bytes[0]),
        Err(_) => "too short for a control message".to_string(),
    }
}

pub fn control(control: Control) -> String {
    let Control {
        kind,
        address,
        block,
    } = control;
    format!("{}, address {address}, block {block}", kind.name())
}

/// `1 block`, `2 blocks`.
pub fn counted(count: usize, what: &str) -> String {
    let ending = if count == 1 { "" } else { "s" };
    format!("{count} {what}{ending}")
}

/// A number of shared memory that makes no sense: it may be an address, or have
/// its bytes in another order.
pub fn strange(number: u32) -> String {
    format!("{number} (0x{number:08x})")
}

impl Display for Request {
    fn fmt(&self, f: &mut Formatter) -> fmt::Result {
        write!(
            f,
            "region {:#x} to {:#x}, {}, other region {}, alignment {}",
            self.begin,
            self.end,
            counted(self.local_blocks as usize, "block"),
            self.remote_blocks,
            self.alignment
        )
    }
}

impl Display for Plain {
    fn fmt(&self, f: &mut Formatter) -> fmt::Result {
        let Plain {
            begin,
            end,
            alignment,
        } = self;
        write!(
            f,
            "plain region {begin:#x} to {end:#x}, alignment {alignment}"
        )
    }
}
