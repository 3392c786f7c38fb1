//! Regions made by known calls, and what must be said of them.

use super::says;
use crate::compare::report::Group;
use crate::link::end::{End, Open, Opening};
use crate::link::layout::Request;
use crate::link::refusal::Refusal;
use crate::look::region::show;

/// Lines of a usual region at most, so that a screen has them all.
const SCREEN: usize = 48;

/// Where the indexes, the data and the blocks are in the transmit region.
const READ_INDEX: usize = 0;
const WRITE_INDEX: usize = 32;
const DATA: usize = 36;
const BLOCKS: usize = 512;
const BLOCK_SIZE: usize = 96;

/// An initiator that transmits in a region of 16 blocks of 96 bytes, with 476
/// data bytes; the other one has 32.
const OPENING: Opening = Opening {
    transmit_begin: 0x2007_0000,
    transmit_end: 0x2007_0800,
    receive_begin: 0x2006_8000,
    receive_end: 0x2006_8800,
    transmit_blocks: 16,
    receive_blocks: 32,
    alignment: 32,
};

/// An end whose transmit region is looked at.
struct Writer {
    end: End,
    region: Vec<u8>,
}

impl Writer {
    fn new() -> Self {
        let (end, _) = End::open(&OPENING);
        Writer {
            end,
            region: vec![0; 2048],
        }
    }

    fn started() -> Self {
        let mut writer = Writer::new();
        writer.call(|open, region| open.start(region).map(drop));
        writer
    }

    fn call(&mut self, call: impl FnOnce(&mut Open, &mut [u8]) -> Result<(), Refusal>) {
        let region = &mut self.region;
        let outcome = self.end.call(|open| {
            call(open, region)?;
            Ok(Default::default())
        });
        assert_eq!(outcome.number, 0, "a call that is accepted");
    }

    fn push(&mut self, content: &[u8]) {
        self.call(|open, region| open.push(region, content).map(drop));
    }

    fn register(&mut self, name: &[u8]) {
        self.call(|open, region| open.register(region, name).map(drop));
    }

    /// Sends a content to an address, from the lowest free block on.
    fn send(&mut self, address: u32, start: u32, content: &[u8]) {
        let k = content.len() as u32;
        self.call(|open, region| {
            open.reserve(k)?;
            let place = open.room(region, start)?.place;
            region[place][..content.len()].copy_from_slice(content);
            open.send(region, start, address, k).map(drop)
        });
    }

    /// Writes a number where no call would.
    fn poke(&mut self, at: usize, number: u32) {
        self.region[at..at + 4].copy_from_slice(&number.to_le_bytes());
    }

    fn says(&self, group: &mut Group, what: &str, lines: &[&str]) {
        let text = show(&OPENING.transmit(), &self.region).expect("an accepted region");
        says(group, what, &text, lines);
        if text.lines().count() > SCREEN {
            group.mismatch(|| format!("{what}: more than {SCREEN} lines\n{text}"));
        }
    }
}

pub fn known(group: &mut Group) {
    untouched(group);
    messages(group);
    indexes(group);
    packets(group);
    refused_arrivals(group);
    full(group);
}

fn untouched(group: &mut Group) {
    Writer::new().says(
        group,
        "an untouched region",
        &[
            "region 0x20070000 to 0x20070800, 16 blocks, other region 32, alignment 32, 2048 bytes",
            "0x20070000 read index, shared: 0",
            "0x20070020 write index, shared: 0",
            "0x20070024 data, 476 bytes",
            "0x20070200 blocks, 16 of 96 bytes",
            "0x20070800 end",
            "What an end keeps privately (own indexes, messages, endpoints) is not in a dump; \
             15, 18, 19, 21, 22 and 25 depend on it.",
            "ring empty: a pull is refused with 8: the ring is empty; contents of up to 468 bytes fit",
            "[................]",
            "0-15 all zero",
            "odd 1 thing",
            "the ring was not started: both indexes are 0, and there is no start packet",
        ],
    );
    let mut writer = Writer::started();
    writer.poke(READ_INDEX, 20);
    writer.says(
        group,
        "a start that was pulled",
        &["a start packet stands at 0, pulled already", "odd nothing"],
    );
}

/// Bindings and data, announced and not yet pulled.
fn messages(group: &mut Group) {
    let mut writer = Writer::started();
    writer.register(b"example");
    writer.register(b"pump");
    writer.call(|open, _| open.arrival(&[0; 2048], &[3, 1, 1]).map(drop));
    writer.send(1, 1, b"calibration 7.31");
    writer.send(1, 2, &[0xAA; 200]);
    writer.push(&[1, 0, 31]);
    writer.push(&[3, 4, 0, 9]);
    writer.says(
        group,
        "bindings and data",
        &[
            "ring 68 bytes unread: 7 packets; contents of up to 400 bytes fit",
            "[R=====W.........................................] \
             R read, W write, X both, = unread; a cell is 10 bytes",
            "at 0 13 bytes 45 6d 31 6c .. start packet",
            "at 20 3 bytes 02 00 00 bound, address 0, block 0: \"example\" K 8",
            "at 36 3 bytes 00 01 01 data, address 1, block 1: K 16",
            "at 44 3 bytes 00 01 02 data, address 1, block 2: K 200",
            "at 52 3 bytes 01 00 1f release data, address 0, block 31",
            "at 60 4 bytes 03 04 00 09 release bound, address 4, block 0",
            "0 0x20070200 K 8 block 0 \"example\\x00\"",
            "2 0x200702c0 K 200 blocks 2 to 4 aa aa aa aa aa aa aa aa aa aa aa aa aa aa aa aa ..",
            "3-4 goes on from block 2",
            "5-15 all zero",
        ],
    );
    // The second binding's block was used again before it was pulled.
    writer.says(
        group,
        "a binding that was written over",
        &[
            "at 28 3 bytes 02 01 01 bound, address 1, block 1",
            "[BDDdd...........]",
            "1 0x20070260 K 16 block 1 \"calibration 7.31\"",
            "odd 1 thing",
            "packet at 28: its arrival is refused with 20: the name is empty, too long, has a zero \
             or is not zero-ended (\"calibration 7.31\")",
        ],
    );
}

fn indexes(group: &mut Group) {
    let rule = "(it has to be below 476 and a multiple of 4)";
    let next = "from the read index on: 00 0d 00 00 45 6d 31 6c 31 4b 30 72 6e 33 6c 69 34 \
                00 00 00 00 00 00 00";
    for (at, index, shown, said) in [
        (
            READ_INDEX,
            476,
            None,
            "read index 476 (0x000001dc): a push is",
        ),
        (READ_INDEX, 6, None, "read index 6 (0x00000006): a push is"),
        (
            WRITE_INDEX,
            21,
            Some(next),
            "write index 21 (0x00000015): a pull is",
        ),
        (
            WRITE_INDEX,
            u32::MAX,
            Some(next),
            "write index 4294967295 (0xffffffff): a pull is",
        ),
    ] {
        let mut writer = Writer::started();
        writer.poke(at, index);
        let odd = format!("{said} refused with 7: the partner's index is out of rule {rule}");
        let mut lines = vec!["ring unknown what is unread, as an index is out of rule"];
        lines.extend(shown);
        lines.extend(["odd 1 thing", &odd]);
        writer.says(group, "an index out of rule", &lines);
    }
}

fn packets(group: &mut Group) {
    let mut writer = Writer::started();
    writer.push(&[0, 0, 3]);
    writer.poke(DATA + 20, u32::from_le_bytes([0x00, 0x05, 0, 0]));
    writer.says(
        group,
        "a packet longer than the unread bytes",
        &[
            "ring 28 bytes unread: 1 packet, then a broken one, whose pull drops 8 bytes; \
             contents of up to 440 bytes fit",
            "packet at 20: a pull is refused with 9: the packet is longer than the unread bytes \
             (00 05 00 00: 5 bytes of content, 8 unread, and the pull drops them)",
        ],
    );
    writer.poke(DATA + 20, u32::from_le_bytes([0x00, 0x03, 0x12, 0]));
    writer.says(
        group,
        "reserved bytes",
        &["packet at 20: the reserved bytes are not zero (12 00, nobody looks at them)"],
    );

    // Around the end of the data.
    let mut writer = Writer::started();
    writer.push(&[0x55; 440]);
    writer.poke(READ_INDEX, 464);
    writer.push(b"Em1l1K0rn3li4");
    writer.says(
        group,
        "a packet around the end",
        &["at 464 13 bytes 45 6d 31 6c .. start packet"],
    );
}

/// A ring whose packets after the start are refused, all but one.
fn refused_by_their_bytes() -> Writer {
    let header = |block: usize| BLOCKS + BLOCK_SIZE * block;
    let mut writer = Writer::started();
    writer.poke(header(5), 11 * 96 - 3);
    writer.poke(header(6), 10 * 96 - 4);
    let contents: [&[u8]; 10] = [
        &[],
        &[2, 0],
        &[4, 0, 0],
        &[0, 0xFE, 0],
        &[0, 0, 16],
        &[3, 0, 32],
        &[0, 0, 5],
        &[2, 0, 7],
        &[0, 0, 6],
        &[0, 0, 15],
    ];
    for content in contents {
        writer.push(content);
    }
    writer
}

/// The numbers that the bytes alone decide.
fn refused_arrivals(group: &mut Group) {
    let mut writer = refused_by_their_bytes();
    writer.says(
        group,
        "arrivals that are refused",
        &[
            "at 20 0 bytes too short for a control message",
            "at 32 3 bytes 04 00 00 unknown kind 4",
            "and 3 more",
            "5 0x200703e0 K 1053 past the last: 17 00 00 00 00 00 00 00 00 00 00 00 00 00 00 00 00 ..",
            "6 0x20070440 K 956 blocks 6 to 15 00 00 00 00 00 00 00 00 00 00 00 00 00 00 00 00 ..",
            "odd 9 things",
            "packet at 20: its arrival is refused with 12: the control message is too short",
            "packet at 24: its arrival is refused with 12: the control message is too short",
            "packet at 32: its arrival is refused with 13: the control message is of unknown kind, \
             and ignored",
            "packet at 40: its arrival is refused with 14: the address is above 0xfd (0xfe)",
            "packet at 48: its arrival is refused with 16: the block number is not below the block \
             count (16 of 16)",
            "packet at 56: its arrival is refused with 16: the block number is not below the block \
             count (32 of the other region's 32)",
            "and 3 more",
        ],
    );
    writer.poke(READ_INDEX, 64);
    writer.says(
        group,
        "the last of them, the others pulled",
        &[
            "odd 3 things",
            "packet at 64: its arrival is refused with 17: K + 4 bytes run past the last block \
             (K 1053 (0x0000041d) in block 5)",
            "packet at 72: its arrival is refused with 20: the name is empty, too long, has a zero \
             or is not zero-ended (no bytes)",
            "packet at 88: its arrival is refused with 18: a block of the message is held already \
             (until that of the packet at 80 is done with)",
        ],
    );
}

fn full(group: &mut Group) {
    let mut writer = Writer::started();
    for _ in 0..56 {
        writer.push(&[1, 0, 0]);
    }
    writer.push(&[]);
    writer.says(
        group,
        "a full ring",
        &[
            "ring 472 bytes unread: 58 packets; any push is refused with 10: the ring is full: \
           the packet does not fit now",
        ],
    );
}

/// Layouts that are refused, and a dump that is not as long as its region.
pub fn refused(group: &mut Group) {
    let usual = OPENING.transmit();
    let cases: [(Request, usize, &str); 6] = [
        (
            Request { alignment: 3, ..usual },
            2048,
            "refused with 1: the alignment is not a power of two from 4 to 256",
        ),
        (
            Request { local_blocks: 257, ..usual },
            2048,
            "refused with 2: a block count is not one of 1 to 256",
        ),
        (
            Request { end: usual.begin, ..usual },
            0,
            "refused with 3: the region's begin is not below its end, or it has over 1,048,576 bytes",
        ),
        (
            Request { local_blocks: 256, ..usual },
            2048,
            "refused with 4: the region is too small for its ring, or for its blocks of one alignment each",
        ),
        (usual, 2047, "refused with 6: the region has 2048 bytes and the file 2047"),
        (usual, 0, "refused with 6: the region has 2048 bytes and the file 0"),
    ];
    for (request, length, line) in cases {
        let text = show(&request, &vec![0; length]).unwrap_or_else(|refused| refused);
        says(
            group,
            "a refused dump",
            &text,
            &[&request.to_string(), line],
        );
    }
}
