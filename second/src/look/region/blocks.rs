//! The blocks of a region, and the messages that may be in them.

use std::ops::Range;

use super::dump::{Dump, Packet, Said};
use crate::link::end::{ControlKind, Message, HEADER};
use crate::link::refusal::Refusal;
use crate::look::words::text_or_hex;

/// Cells of a row of the picture, one for each block.
const CELLS: usize = 64;

/// Lines of blocks; those that the ring speaks of come before all others.
const MOST_LINES: usize = 18;

/// Bytes of a message that are shown.
const SHOWN: usize = 16;

/// What is in a block, by what is unread on the ring and by its bytes.
#[derive(Clone, Copy, PartialEq, Eq)]
enum Use {
    /// A message that is announced starts here.
    Starts(ControlKind),
    /// It goes on here.
    GoesOn(ControlKind, u32),
    /// Nothing announced, and bytes that are not zero.
    Other,
    Zero,
}

impl Use {
    fn cell(self) -> char {
        match self {
            Use::Starts(ControlKind::Bound) => 'B',
            Use::Starts(_) => 'D',
            Use::GoesOn(ControlKind::Bound, _) => 'b',
            Use::GoesOn(..) => 'd',
            Use::Other => 'o',
            Use::Zero => '.',
        }
    }
}

struct Line {
    /// The ring speaks of it.
    announced: bool,
    text: String,
}

pub fn show(dump: &Dump) -> String {
    let uses = uses(dump);
    let cells: Vec<char> = uses.iter().map(|block| block.cell()).collect();
    let rows = cells
        .chunks(CELLS)
        .map(|row| format!("  [{}]\n", row.iter().collect::<String>()));
    let picture: String = rows.collect();
    format!(
        "blocks  D data, B bound on the ring, d b further blocks of it, \
         o other bytes, . all zero\n{picture}{}",
        fitting(lines(dump, &uses))
    )
}

fn uses(dump: &Dump) -> Vec<Use> {
    let region = &dump.region;
    let mut uses: Vec<Use> = (0..region.block_count())
        .map(|block| {
            let begin = region.block_offset(block);
            let bytes = &dump.bytes[begin..begin + region.bytes_of(1) as usize];
            if bytes.iter().all(|&byte| byte == 0) {
                Use::Zero
            } else {
                Use::Other
            }
        })
        .collect();
    for (kind, message) in dump.packets.iter().filter_map(announced) {
        for block in message.blocks() {
            uses[block as usize] = Use::GoesOn(kind, message.start);
        }
        uses[message.start as usize] = Use::Starts(kind);
    }
    uses
}

fn announced(packet: &Packet) -> Option<(ControlKind, &Message)> {
    let Said {
        control, message, ..
    } = packet.said.as_ref().ok()?;
    Some((control.kind, message.as_ref()?))
}

/// A line for each block that says something, and for each row of like ones.
fn lines(dump: &Dump, uses: &[Use]) -> Vec<Line> {
    let mut lines = Vec::new();
    let mut block = 0;
    while let Some(&here) = uses.get(block) {
        let like = uses[block..].iter().take_while(|&&other| other == here);
        let count = match here {
            Use::Starts(_) | Use::Other => 1,
            Use::GoesOn(..) | Use::Zero => like.count(),
        };
        let blocks = block..block + count;
        block = blocks.end;
        let text = match here {
            Use::Starts(_) | Use::Other => header_line(dump, blocks.clone()),
            Use::GoesOn(_, start) => format!("{}  goes on from block {start}", numbers(&blocks)),
            Use::Zero => format!("{}  all zero", numbers(&blocks)),
        };
        lines.push(Line {
            announced: matches!(here, Use::Starts(_) | Use::GoesOn(..)),
            text,
        });
    }
    lines
}

/// Leaves out as many lines as are too many: of the last ones, those that the
/// ring does not speak of.
fn fitting(lines: Vec<Line>) -> String {
    let too_many = lines.len().saturating_sub(MOST_LINES);
    let others = lines.iter().filter(|line| !line.announced).count();
    let mut others_left = others - others.min(too_many);
    let mut announced_left = MOST_LINES - others_left.min(MOST_LINES);
    let mut text = String::new();
    for Line {
        announced,
        text: line,
    } in &lines
    {
        let left = if *announced {
            &mut announced_left
        } else {
            &mut others_left
        };
        if *left > 0 {
            *left -= 1;
            text += &format!("  {line}\n");
        }
    }
    if too_many > 0 {
        text += &format!("  and {too_many} more\n");
    }
    text
}

/// What a message that starts at the block would be by its header.
fn header_line(dump: &Dump, blocks: Range<usize>) -> String {
    let region = &dump.region;
    let start = blocks.start as u32;
    let address = region.layout.blocks_begin + region.bytes_of(start) as u32;
    let k = region.read_k(dump.bytes, start);
    let (run, length) = match region.message(dump.bytes, start) {
        Ok(message) => {
            let blocks = message.blocks();
            let run = match message.count {
                1 => format!("block {start}"),
                _ => format!("blocks {} to {}", blocks.start, blocks.end - 1),
            };
            (run, k as usize)
        }
        Err(refusal) => {
            let in_block = region.bytes_of(1) as usize - HEADER;
            (past_the_last(refusal), in_block)
        }
    };
    let content = &dump.bytes[region.content(start, length)];
    let shown = text_or_hex(content, SHOWN);
    format!(
        "{}  0x{address:08x}  K {k:<10}  {run:<17}  {shown}",
        numbers(&blocks)
    )
}

fn past_the_last(refusal: Refusal) -> String {
    format!("past the last: {}", refusal as u32)
}

/// `   3` or ` 4-7`.
fn numbers(blocks: &Range<usize>) -> String {
    let last = blocks.end - 1;
    if blocks.start == last {
        format!("{last:>7}")
    } else {
        format!("{:>7}", format!("{}-{last}", blocks.start))
    }
}
