//! The ring of a region: how full it is, and its packets.

use super::dump::{Dump, Packet, Said};
use super::listed;
use crate::link::refusal::Refusal;
use crate::link::ring::LONGEST_CONTENT;
use crate::look::words::{content, counted, hex, refused, text};

/// Cells of the picture at most; each stands for some bytes.
const CELLS: usize = 48;

/// Packets that are listed.
const MOST_PACKETS: usize = 8;

/// Bytes of a content that are shown; a control message has three.
const SHOWN: usize = 4;

/// Bytes that are shown where it is unknown what is unread.
const NEXT_SHOWN: usize = 24;

pub fn show(dump: &Dump) -> String {
    let mut text = format!("ring    {}\n  {}\n", fullness(dump), picture(dump));
    let lines: Vec<String> = dump.packets.iter().map(packet_line).collect();
    text += &listed(&lines, MOST_PACKETS);
    match dump.unread() {
        Some(0) if dump.starts_at_0() => text += "  a start packet stands at 0, pulled already\n",
        None if dump.in_rule(dump.read_index) => {
            let next: Vec<u8> = dump.data_at(dump.read_index).take(NEXT_SHOWN).collect();
            text += &format!("  from the read index on: {}\n", hex(&next, NEXT_SHOWN));
        }
        _ => {}
    }
    text
}

fn fullness(dump: &Dump) -> String {
    let Some(unread) = dump.unread() else {
        return "unknown what is unread, as an index is out of rule".to_string();
    };
    // Used bytes are at most one less than there are.
    let free = dump.region.layout.data_length as usize - 1 - unread;
    let space = match (free / 4 * 4).checked_sub(4) {
        Some(longest) => format!(
            "contents of up to {} bytes fit",
            longest.min(LONGEST_CONTENT)
        ),
        None => format!("any push is {}", refused(Refusal::Full)),
    };
    match unread {
        0 => format!("empty: a pull is {}; {space}", refused(Refusal::Empty)),
        _ => {
            let packets = counted(dump.packets.len(), "packet");
            let broken = dump.stop.dropped.map_or(String::new(), |dropped| {
                format!(
                    ", then a broken one, whose pull drops {} bytes",
                    dropped.bytes
                )
            });
            format!("{unread} bytes unread: {packets}{broken}; {space}")
        }
    }
}

/// The data as a row of cells, with the indexes in it.
fn picture(dump: &Dump) -> String {
    let data_length = dump.region.layout.data_length as usize;
    let bytes_per_cell = data_length.div_ceil(CELLS);
    let mut cells = vec![b'.'; data_length.div_ceil(bytes_per_cell)];
    if let Some(unread) = dump.unread() {
        for byte in 0..unread {
            let index = (dump.read_index as usize + byte) % data_length;
            cells[index / bytes_per_cell] = b'=';
        }
    }
    for (index, mark) in [(dump.read_index, b'R'), (dump.write_index, b'W')] {
        if dump.in_rule(index) {
            let cell = &mut cells[index as usize / bytes_per_cell];
            *cell = if *cell == b'R' { b'X' } else { mark };
        }
    }
    format!(
        "[{}]  R read, W write, X both, = unread; a cell is {}",
        cells.escape_ascii(),
        counted(bytes_per_cell, "byte")
    )
}

fn packet_line(packet: &Packet) -> String {
    let Packet {
        at,
        content: bytes,
        said,
    } = packet;
    let length = counted(bytes.len(), "byte");
    let announced = said.as_ref().map_or(String::new(), announced);
    let said = content(bytes);
    let bytes = hex(bytes, SHOWN);
    format!("at {at:<5} {length:<8}  {bytes:<14}  {said}{announced}")
}

fn announced(said: &Said) -> String {
    let Some(message) = &said.message else {
        return String::new();
    };
    let name = said.name.as_ref();
    let name = name.map_or(String::new(), |name| {
        format!(" {}", text(name.bytes(), usize::MAX))
    });
    format!(":{name} K {}", message.k)
}
