//! Scripts that stop, and what must be said of them.

use super::says;
use crate::compare::report::Group;
use crate::compare::traffic::{in_script_main, Case};
use crate::compare::Opponent;
use crate::link::end::{Opening, Slice};
use crate::link::script::{Record, OPENING_BYTES, ROW_BYTES};

fn script(records: &[Record]) -> Vec<u8> {
    let mut script = Opening::EXAMPLE.encode();
    for record in records {
        record.encode(&mut script);
    }
    script
}

fn case_says(group: &mut Group, what: &str, case: &Case, lines: &[&str]) {
    let made = case.run(Opponent::Proved);
    let text = case.show(&made, Opponent::Proved);
    says(group, what, &text, lines);
    if !made.alike() {
        group.mismatch(|| format!("{what}: the sides differ\n{text}"));
    }
}

/// What stands behind a start that ends at byte 25, and what is said of it.
const BEHIND_START: [(&[u8], &str); 9] = [
    (&[], "ends at byte 25, with the script"),
    (&[99, 0, 0], "stops at byte 25: unknown kind 99"),
    (&[7, 200, 0, 1], "stops at byte 25: unknown kind 7"),
    (
        &[2, 3, 0, 1, 2, 3],
        "stops at byte 25: body of 3 bytes where 4 are wanted",
    ),
    (
        &[16, 1, 0, 1],
        "stops at byte 25: body of 1 byte where 0 are wanted",
    ),
    (
        &[33, 3, 0, 1, 2, 3],
        "stops at byte 25: body of 3 bytes where 4 or more are wanted",
    ),
    (
        &[2, 9, 0, 1, 2, 3, 4],
        "stops at byte 25: a record of 12 bytes where 7 are left",
    ),
    (
        &[0, 255, 255],
        "stops at byte 25: a record of 65538 bytes where 3 are left",
    ),
    (
        &[2, 4],
        "stops at byte 25: a record header of 3 bytes where 2 are left",
    ),
];

/// Bytes for the rows of two starts, where they stop, and how many are left.
const OUTPUTS: [(usize, usize, usize); 4] = [
    (0, 0, 0),
    (ROW_BYTES - 1, 0, ROW_BYTES - 1),
    (ROW_BYTES, 22, 0),
    (2 * ROW_BYTES + 9, 25, 9),
];

pub fn stops(group: &mut Group) {
    let started = "accepted; length 13; free blocks 16 and 32, sums 50467 0 0";
    for (bytes, line) in BEHIND_START {
        let mut script = script(&[Record::Start]);
        script.extend(bytes);
        let case = in_script_main(script);
        case_says(group, "behind a start", &case, &[started, line]);
    }
    for length in 0..OPENING_BYTES {
        let mut bytes = script(&[]);
        bytes.truncate(length);
        let are = if length == 1 { "is" } else { "are" };
        let line = format!("stops at byte 0: an opening of 22 bytes where {length} {are} left");
        case_says(group, "a cut opening", &in_script_main(bytes), &[&line]);
    }
    let mut case = in_script_main(script(&[Record::Start, Record::Start]));
    for (out, at, left) in OUTPUTS {
        case.lengths.out = out;
        let why = format!("the output is full: a row of 56 bytes where {left} are left");
        let line = format!("stops at byte {at}: {why}");
        case_says(group, "a full output", &case, &[&line]);
    }
    case.lengths.out = 3 * ROW_BYTES;
    let line = "ends at byte 28, with the script";
    case_says(group, "an output that is just enough", &case, &[line]);
}

/// Records of many kinds.
const MANY_KINDS: [Record; 15] = [
    Record::Register(b"pump\x01\"\xE9"),
    Record::Register(&[b'n'; 32]),
    Record::Reserve { k: 1532 },
    Record::Reserve { k: 0 },
    Record::Reserve { k: 1533 },
    Record::Room { start: 0 },
    Record::Arrival(&[2, 0xFE, 0]),
    Record::Arrival(&[]),
    Record::Push(b"Em1l1K0rn3li4"),
    Record::Pull { buffer_length: 3 },
    // The partner's index, and the length of a packet.
    Record::Write {
        slice: Slice::Receive,
        offset: 32,
        bytes: &[8, 0, 0, 0, 0, 5],
    },
    Record::Pull { buffer_length: 3 },
    // A binding for the endpoint that waits.
    Record::Write {
        slice: Slice::Receive,
        offset: 1024,
        bytes: b"\x08\0\0\0pump\x01\"\xE9\0",
    },
    Record::Arrival(&[2, 5, 0]),
    Record::Send {
        start: 0,
        address: 5,
        k: 92,
    },
];

/// What must be said of them.
const SAID_OF_THEM: [&str; 28] = [
    "0 byte 0 opening, transmit 0x20070000 to 0x20070800 with 16 blocks, \
     receive 0x20078000 to 0x20078800 with 32 blocks, alignment 32",
    "accepted; free blocks 16 and 32, sums 0 0 0",
    "1 byte 22 register \"pump\\x01\\\"\\xe9\"",
    "2 byte 32 register \"nnnnnnnnnnnnnnnnnnnnnnnnnnnnnnnn\"",
    "refused with 20: the name is empty, too long, has a zero or is not zero-ended; \
     free blocks 16 and 32, sums 0 0 0",
    "3 byte 67 reserve 1532 bytes",
    "accepted; start 0, count 16; free blocks 0 and 32, sums 0 0 0",
    "4 byte 74 reserve 0 bytes",
    "refused with 24: no run of free blocks is long enough; free blocks 0 and 32, sums 0 0 0",
    "refused with 23: the message is longer than can ever fit; free blocks 0 and 32, sums 0 0 0",
    "6 byte 88 room of start 0",
    "accepted; 1532 bytes at 516; free blocks 0 and 32, sums 0 0 0",
    "7 byte 95 arrival 02 fe 00 (bound, address 254, block 0)",
    "refused with 14: the address is above 0xfd; free blocks 0 and 32, sums 0 0 0",
    "8 byte 101 arrival of no bytes (too short for a control message)",
    "refused with 12: the control message is too short; free blocks 0 and 32, sums 0 0 0",
    "9 byte 104 push 45 6d 31 6c 31 4b 30 72 6e 33 6c 69 34 (start packet)",
    "10 byte 120 pull into 3 bytes",
    "refused with 8: the ring is empty; length 0; free blocks 0 and 32, sums 50467 0 0",
    "11 byte 125 write receive bytes at 32: 08 00 00 00 00 05",
    "accepted; free blocks 0 and 32, sums 50467 454 0",
    "12 byte 138 pull into 3 bytes",
    "refused with 9: the packet is longer than the unread bytes; length 0, 8 bytes dropped; \
     free blocks 0 and 32, sums 50467 462 0",
    "14 byte 162 arrival 02 05 00 (bound, address 5, block 0)",
    "accepted; to push 03 05 00 (release bound, address 5, block 0); \
     free blocks 0 and 32, sums 50467 28996 0",
    "15 byte 168 send start 0, address 5, K 92",
    "accepted; pushed 00 05 00 (data, address 5, block 0); \
     free blocks 15 and 32, sums 32890 28996 0",
    "ends at byte 183, with the script",
];

/// What records, refusals and names look like.
pub fn words(group: &mut Group) {
    let case = in_script_main(script(&MANY_KINDS));
    case_says(group, "a script of many kinds", &case, &SAID_OF_THEM);
}
