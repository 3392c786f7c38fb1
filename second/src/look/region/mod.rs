//! The bytes of one region in words, and as a picture.

mod blocks;
mod dump;
mod ring;

pub use dump::{Dump, Packet};

use super::words::{counted, refused};
use crate::link::layout::Request;
use crate::link::refusal::Refusal;
use dump::Odd;

/// Odd things that are listed.
const MOST_ODD: usize = 6;

/// What a dump does not show.
const PRIVATE: &str = "What an end keeps privately (own indexes, messages, endpoints) is not in a \
                       dump; 15, 18, 19, 21, 22 and 25 depend on it.";

/// Any bytes as the region that is asked for; an error says why they are none.
pub fn show(request: &Request, bytes: &[u8]) -> Result<String, String> {
    let dump = Dump::read(request, bytes).map_err(|refusal| match refusal {
        Refusal::WrongRegion => format!(
            "{request}\nrefused with {}: the region has {} bytes and the file {}\n",
            refusal as u32,
            request.end - request.begin,
            bytes.len(),
        ),
        _ => format!("{request}\n{}\n", refused(refusal)),
    })?;
    let parts = [
        layout(&dump),
        ring::show(&dump),
        blocks::show(&dump),
        odd(&dump),
    ];
    Ok(parts.join("\n"))
}

fn layout(dump: &Dump) -> String {
    let Request { begin, .. } = dump.region.request;
    let layout = &dump.region.layout;
    let address = |place: usize| format!("0x{:08x}", begin as usize + place);
    let [read, write] = [
        dump.region.read_index_place().start,
        dump.region.write_index_place().start,
    ];
    format!(
        "{}, {} bytes\n\
         \x20 {}  read index, shared: {}\n\
         \x20 {}  write index, shared: {}\n\
         \x20 {}  data, {} bytes\n\
         \x20 0x{:08x}  blocks, {} of {} bytes\n\
         \x20 0x{:08x}  end\n\
         {PRIVATE}\n",
        dump.region.request,
        dump.bytes.len(),
        address(read),
        dump.read_index,
        address(write),
        dump.write_index,
        address(write + 4),
        layout.data_length,
        layout.blocks_begin,
        dump.region.block_count(),
        layout.block_size,
        layout.end,
    )
}

fn odd(dump: &Dump) -> String {
    if dump.odd.is_empty() {
        return "odd     nothing\n".to_string();
    }
    let lines: Vec<String> = dump.odd.iter().map(Odd::to_string).collect();
    let things = counted(lines.len(), "thing");
    format!("odd     {things}\n{}", listed(&lines, MOST_ODD))
}

/// The first lines; of the others how many they are.
fn listed(lines: &[String], most: usize) -> String {
    let shown = lines.len().min(most);
    let mut text: String = lines[..shown]
        .iter()
        .map(|line| format!("  {line}\n"))
        .collect();
    if lines.len() > shown {
        text += &format!("  and {} more\n", lines.len() - shown);
    }
    text
}
