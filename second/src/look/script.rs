//! Rows and scripts in words.

use super::words::{self, counted};
use crate::link::end::{Control, Opening};
use crate::link::script::{
    BodyLength, Ran, Record, Row, Stop, OPENING_BYTES, RECORD_HEADER, ROW_BYTES, ROW_NAMES,
};

/// The rows of one side, with its name.
pub type Side<'a> = (&'a str, &'a [Row]);

/// The script, a line for its opening and each record, with the rows. Rows that
/// differ are marked, and both are shown. At last, where it ends.
pub fn script(script: &[u8], sides: [Side; 2], ran: &Ran) -> String {
    let mut text = String::new();
    for (row, Line { at, record, words }) in lines(script).into_iter().enumerate() {
        let [(one_side, one), (other_side, other)] = sides;
        match [one.get(row), other.get(row)] {
            [Some(one), Some(other)] if one == other => {
                text += &format!("  {row:>4}  byte {at:<5} {words}\n");
                text += &format!("                    {}\n", row_line(record, one));
            }
            [None, None] => {}
            [one, other] => {
                text += &format!("* {row:>4}  byte {at:<5} {words}\n");
                text += &both(record, [(one_side, one), (other_side, other)]);
            }
        }
    }
    text + &end_line(ran) + "\n"
}

/// The opening or a record.
struct Line<'a> {
    /// Where it begins.
    at: usize,
    /// None of the opening.
    record: Option<Record<'a>>,
    words: String,
}

fn lines(script: &[u8]) -> Vec<Line<'_>> {
    let Ok((opening, mut records)) = Opening::decode(script) else {
        return Vec::new();
    };
    let mut lines = vec![Line {
        at: 0,
        record: None,
        words: opening_line(&opening),
    }];
    loop {
        let at = records.at;
        let Some(record) = records.next() else {
            return lines;
        };
        lines.push(Line {
            at,
            record: Some(record),
            words: record.to_string(),
        });
    }
}

/// Where a run ended, and why if it stopped early.
fn end_line(ran: &Ran) -> String {
    let at = ran.at;
    match ran.stop {
        Some(stop) => format!("stops at byte {at}: {}", why(stop)),
        None => format!("ends at byte {at}, with the script"),
    }
}

fn why(stop: Stop) -> String {
    let cut = |what: &str, length: usize, left: usize| {
        let length = counted(length, "byte");
        let are = if left == 1 { "is" } else { "are" };
        format!("{what} of {length} where {left} {are} left")
    };
    match stop {
        Stop::Opening { left } => cut("an opening", OPENING_BYTES, left),
        Stop::RecordHeader { left } => cut("a record header", RECORD_HEADER, left),
        Stop::Record { length, left } => cut("a record", length, left),
        Stop::UnknownKind(kind) => format!("unknown kind {kind}"),
        Stop::Body { length, wanted } => {
            let wanted = match wanted {
                BodyLength::Any => "any number are".to_string(),
                BodyLength::Exactly(wanted) => format!("{wanted} are"),
                BodyLength::AtLeast(wanted) => format!("{wanted} or more are"),
            };
            let length = counted(length, "byte");
            format!("body of {length} where {wanted} wanted")
        }
        Stop::Output { left } => {
            format!("the output is full: {}", cut("a row", ROW_BYTES, left))
        }
    }
}

/// Two rows of a record that differ, each with its side, and the numbers in
/// which they do.
pub fn both(record: Option<Record>, rows: [(&str, Option<&Row>); 2]) -> String {
    let mut text = String::new();
    for (side, row) in rows {
        let row = row.map_or("no row".to_string(), |row| row_line(record, row));
        text += &format!("  {side:<8}{row}\n");
    }
    if let [(one_side, Some(one)), (other_side, Some(other))] = rows {
        for (name, (one, other)) in ROW_NAMES.iter().zip(one.0.iter().zip(other.0)) {
            if *one != other {
                text += &format!("  {name}: {one_side} {one}, {other_side} {other}\n");
            }
        }
    }
    text
}

fn row_line(record: Option<Record>, row: &Row) -> String {
    let [number, _, _, _, _, _, begin, size, free_transmit, free_receive, transmit, receive, buffer, _] =
        row.0;
    let place = match size {
        0 => String::new(),
        _ => format!("; {size} bytes at {begin}"),
    };
    format!(
        "{}{}{place}; free blocks {free_transmit} and {free_receive}, \
         sums {transmit} {receive} {buffer}",
        words::outcome(number),
        given(record, row)
    )
}

/// What comes with the answer, by a row's last number.
fn given(record: Option<Record>, row: &Row) -> String {
    let numbers = |from: &[u32]| format!("; values {from:?}");
    match (row.given(), row.values()) {
        (0, []) => String::new(),
        (1, [length]) => format!("; length {length}"),
        (1, [length, dropped]) => {
            let dropped = counted(*dropped as usize, "byte");
            format!("; length {length}, {dropped} dropped")
        }
        (2, [start, count]) => format!("; start {start}, count {count}"),
        (3, values @ [_, _, _]) => match control_bytes(values) {
            Some((bytes, control)) => {
                let bytes = words::hex(&bytes, bytes.len());
                // Other calls have pushed what they give.
                let what = match record {
                    Some(Record::Arrival(_)) => "to push",
                    _ => "pushed",
                };
                format!("; {what} {bytes} ({})", words::control(control))
            }
            None => numbers(values),
        },
        (4, [address, start, k]) => {
            format!("; delivery, address {address}, start {start}, K {k}")
        }
        (given, values) => format!("; given {given}{}", numbers(values)),
    }
}

/// Three values that are bytes of a control message.
fn control_bytes(values: &[u32]) -> Option<(Vec<u8>, Control)> {
    let bytes: Result<Vec<u8>, _> = values.iter().map(|&value| u8::try_from(value)).collect();
    let bytes = bytes.ok()?;
    let control = Control::read(&bytes).ok()?;
    Some((bytes, control))
}

fn opening_line(opening: &Opening) -> String {
    let [transmit, receive] = [opening.transmit(), opening.receive()].map(|region| {
        format!(
            "0x{:08x} to 0x{:08x} with {}",
            region.begin,
            region.end,
            counted(region.local_blocks as usize, "block")
        )
    });
    let alignment = opening.alignment;
    format!("opening, transmit {transmit}, receive {receive}, alignment {alignment}")
}
