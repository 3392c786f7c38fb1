//! Scripts whose outcomes are stated beforehand.

use super::case::{Case, Lengths};
use super::failure;
use crate::compare::report::Group;
use crate::compare::Opponent;
use crate::link::end::{Given, Opening, Slice};
use crate::link::script::{Record, Row, ROW_BYTES};

/// A record, the number that must come of it and what must be given.
type Step = (Record<'static>, u32, Given);

struct Bench {
    name: &'static str,
    opening: Opening,
    /// The number of the opening.
    opened: u32,
    steps: &'static [Step],
    /// Bytes of a slice afterwards, from an offset on.
    afterwards: (Slice, usize, &'static [u8]),
}

/// Regions of so many bytes at alignment 4.
const fn tiny(transmit: [u32; 2], receive: [u32; 2]) -> Opening {
    let [transmit_length, transmit_blocks] = transmit;
    let [receive_length, receive_blocks] = receive;
    Opening {
        transmit_begin: 0x2007_0000,
        transmit_end: 0x2007_0000 + transmit_length,
        receive_begin: 0x2007_8000,
        receive_end: 0x2007_8000 + receive_length,
        transmit_blocks,
        receive_blocks,
        alignment: 4,
    }
}

const CONTROL: Record = Record::Push(&[0x00, 0x02, 0x05]);

const PULL: Record = Record::Pull { buffer_length: 16 };

/// What the partner writes.
const fn receive(offset: u32, bytes: &'static [u8]) -> Record<'static> {
    Record::Write {
        slice: Slice::Receive,
        offset,
        bytes,
    }
}

/// The partner's index on the transmit ring of a tiny region.
const fn partner_at(index: &'static [u8]) -> Record<'static> {
    Record::Write {
        slice: Slice::Transmit,
        offset: 0,
        bytes: index,
    }
}

const fn run(start: u32, count: u32) -> Given {
    Given::Run { start, count }
}

const RESERVE: Record = Record::Reserve { k: 0 };

/// A byte on address 0.
const fn send(start: u32) -> Record<'static> {
    send_to(start, 0, 1)
}

const fn send_to(start: u32, address: u32, k: u32) -> Record<'static> {
    Record::Send { start, address, k }
}

/// Regions with 48 data bytes, which five control messages fill, and two blocks
/// of 16 bytes.
const TWO_BLOCKS: Opening = tiny([88, 2], [88, 2]);

/// The first so many bytes of such a transmit region.
const fn lend_transmit(transmit: u32) -> Record<'static> {
    Record::Lend {
        transmit,
        receive: 88,
    }
}

const fn delivery(address: u8, start: u32, k: u32) -> Given {
    Given::Delivery { address, start, k }
}

const BENCHES: [Bench; 11] = [
    Bench {
        name: "blocks that a message takes",
        opening: Opening::EXAMPLE,
        opened: 0,
        steps: &[
            (Record::Reserve { k: 92 }, 0, run(0, 1)),
            (Record::Reserve { k: 93 }, 0, run(1, 2)),
            (Record::Reserve { k: 0 }, 0, run(3, 1)),
            (Record::Drop { start: 0 }, 0, Given::Nothing),
            (Record::Drop { start: 1 }, 0, Given::Nothing),
            (Record::Drop { start: 3 }, 0, Given::Nothing),
            (Record::Reserve { k: 1532 }, 0, run(0, 16)),
            (Record::Reserve { k: 0 }, 24, Given::Nothing),
            (Record::Reserve { k: 1533 }, 23, Given::Nothing),
        ],
        afterwards: (Slice::Transmit, 0, &[]),
    },
    Bench {
        name: "binding of `example`",
        opening: Opening::EXAMPLE.swapped(),
        opened: 0,
        steps: &[(Record::Register(b"example"), 0, Given::Control([2, 0, 0]))],
        afterwards: (Slice::Transmit, 0x400, b"\x08\0\0\0example\0"),
    },
    Bench {
        name: "data completes a binding",
        opening: Opening::EXAMPLE.swapped(),
        opened: 0,
        steps: &[
            (Record::Register(b"pump"), 0, Given::Control([2, 0, 0])),
            (Record::Register(b"valve"), 0, Given::Control([2, 1, 1])),
            (RESERVE, 0, run(2, 1)),
            (Record::Arrival(&[0, 0, 16]), 16, Given::Nothing),
            (send(2), 15, Given::Nothing),
            // A byte more than the last block has.
            (receive(1952, &[93]), 0, Given::Nothing),
            (Record::Arrival(&[0, 0, 15]), 17, Given::Nothing),
            (send(2), 15, Given::Nothing),
            (Record::Arrival(&[0, 1, 3]), 0, delivery(1, 3, 0)),
            (Record::Arrival(&[0, 0, 3]), 18, Given::Nothing),
            (send(2), 15, Given::Nothing),
            (receive(704, &[5]), 0, Given::Nothing),
            (Record::Arrival(&[0, 0, 2]), 0, delivery(0, 2, 5)),
            (send(2), 0, Given::Control([0, 0, 2])),
            (Record::Register(b"pump"), 21, Given::Nothing),
            // Both bindings hold their blocks until they are released.
            (RESERVE, 0, run(3, 1)),
            (Record::Arrival(&[3, 0, 0]), 0, Given::Nothing),
            (RESERVE, 0, run(0, 1)),
            (send(0), 0, Given::Control([0, 0, 0])),
            (Record::Arrival(&[3, 0, 0]), 25, Given::Nothing),
            (Record::Arrival(&[0, 0, 4]), 0, delivery(0, 4, 0)),
        ],
        afterwards: (Slice::Transmit, 0x400, &[1, 0, 0, 0]),
    },
    Bench {
        name: "data for a follower that waits",
        opening: Opening::EXAMPLE,
        opened: 0,
        steps: &[
            (Record::Register(b"pump"), 0, Given::Nothing),
            (RESERVE, 0, run(0, 1)),
            (Record::Arrival(&[0, 0, 0]), 15, Given::Nothing),
            (send(0), 15, Given::Nothing),
            (receive(0x400, b"\x05\0\0\0pump\0"), 0, Given::Nothing),
            (Record::Arrival(&[2, 0, 0]), 0, Given::Control([3, 0, 0])),
            (Record::Arrival(&[0, 0, 0]), 0, delivery(0, 0, 5)),
            (send(0), 0, Given::Control([0, 0, 0])),
        ],
        afterwards: (Slice::Transmit, 0x200, &[1, 0, 0, 0]),
    },
    Bench {
        name: "packet for data, address 2, block 5",
        opening: Opening::EXAMPLE,
        opened: 0,
        steps: &[(CONTROL, 0, Given::Length(3))],
        afterwards: (
            Slice::Transmit,
            36,
            &[0x00, 0x03, 0x00, 0x00, 0x00, 0x02, 0x05, 0x00],
        ),
    },
    Bench {
        name: "64 data bytes take seven packets",
        opening: tiny([76, 1], [92, 5]),
        opened: 0,
        steps: &[
            (CONTROL, 0, Given::Length(3)),
            (CONTROL, 0, Given::Length(3)),
            (CONTROL, 0, Given::Length(3)),
            (CONTROL, 0, Given::Length(3)),
            (CONTROL, 0, Given::Length(3)),
            (CONTROL, 0, Given::Length(3)),
            (CONTROL, 0, Given::Length(3)),
            (CONTROL, 10, Given::Length(0)),
        ],
        afterwards: (Slice::Transmit, 4, &[56, 0, 0, 0]),
    },
    Bench {
        name: "48 data bytes, an initiator on a full ring",
        opening: TWO_BLOCKS.swapped(),
        opened: 0,
        steps: &[
            (Record::Register(b"pump"), 0, Given::Control([2, 0, 0])),
            (Record::Arrival(&[3, 0, 0]), 0, Given::Nothing),
            (Record::Reserve { k: 28 }, 0, run(0, 2)),
            (CONTROL, 0, Given::Length(3)),
            (CONTROL, 0, Given::Length(3)),
            (CONTROL, 0, Given::Length(3)),
            (CONTROL, 0, Given::Length(3)),
            (CONTROL, 10, Given::Length(0)),
            (send(0), 10, Given::Nothing),
            // What comes before the ring.
            (send(1), 25, Given::Nothing),
            (send_to(0, 1, 1), 15, Given::Nothing),
            (send_to(0, 0, 29), 23, Given::Nothing),
            (Record::Register(b"valve"), 24, Given::Nothing),
            (partner_at(&[1]), 0, Given::Nothing),
            (send(0), 7, Given::Nothing),
            // A packet has been pulled, then another.
            (partner_at(&[8]), 0, Given::Nothing),
            (send(0), 0, Given::Control([0, 0, 0])),
            (Record::Register(b"valve"), 10, Given::Nothing),
            (partner_at(&[16]), 0, Given::Nothing),
            (Record::Register(b"valve"), 0, Given::Control([2, 1, 1])),
            (RESERVE, 24, Given::Nothing),
        ],
        // Both indexes, and the last packet.
        afterwards: (
            Slice::Transmit,
            0,
            &[16, 0, 0, 0, 8, 0, 0, 0, 0, 3, 0, 0, 2, 1, 1, 0],
        ),
    },
    Bench {
        name: "48 data bytes, a follower on a full ring",
        opening: TWO_BLOCKS,
        opened: 0,
        steps: &[
            (CONTROL, 0, Given::Length(3)),
            (CONTROL, 0, Given::Length(3)),
            (CONTROL, 0, Given::Length(3)),
            (CONTROL, 0, Given::Length(3)),
            (CONTROL, 0, Given::Length(3)),
            // It waits, and has nothing to push; nor has it for a binding yet.
            (Record::Register(b"pump"), 0, Given::Nothing),
            (receive(56, b"\x05\0\0\0pump\0"), 0, Given::Nothing),
            (Record::Arrival(&[2, 0, 0]), 0, Given::Control([3, 0, 0])),
            (Record::Arrival(&[0, 0, 0]), 0, delivery(0, 0, 5)),
            (receive(72, b"\x05\0\0\0lamp\0"), 0, Given::Nothing),
            (Record::Arrival(&[2, 1, 1]), 0, Given::Nothing),
            (Record::Done { start: 0 }, 10, Given::Nothing),
            (Record::Done { start: 1 }, 25, Given::Nothing),
            (Record::Register(b"lamp"), 10, Given::Nothing),
            (partner_at(&[48]), 0, Given::Nothing),
            (Record::Done { start: 0 }, 7, Given::Nothing),
            (Record::Register(b"lamp"), 7, Given::Nothing),
            (Record::Register(b"horn"), 0, Given::Nothing),
            (lend_transmit(87), 0, Given::Nothing),
            (Record::Done { start: 0 }, 6, Given::Nothing),
            (lend_transmit(88), 0, Given::Nothing),
            (partner_at(&[8]), 0, Given::Nothing),
            (Record::Done { start: 0 }, 0, Given::Control([1, 0, 0])),
            (Record::Register(b"lamp"), 10, Given::Nothing),
            (partner_at(&[16]), 0, Given::Nothing),
            (Record::Register(b"lamp"), 0, Given::Control([3, 1, 1])),
        ],
        afterwards: (
            Slice::Transmit,
            0,
            &[16, 0, 0, 0, 8, 0, 0, 0, 0, 3, 0, 0, 3, 1, 1, 0],
        ),
    },
    Bench {
        name: "64 data bytes, broken packets",
        opening: tiny([92, 5], [76, 1]),
        opened: 0,
        steps: &[
            // A content of 3 bytes, then one that claims 13, where 16 bytes are unread.
            (
                receive(4, &[24, 0, 0, 0, 0, 3, 0, 0, 1, 0, 0, 0, 0, 13]),
                0,
                Given::Nothing,
            ),
            (PULL, 0, Given::Length(3)),
            (PULL, 9, Given::Dropped(16)),
            (PULL, 8, Given::Length(0)),
            (receive(32, &[0, 3, 0, 0, 0, 2, 5, 0]), 0, Given::Nothing),
            (receive(4, &[32]), 0, Given::Nothing),
            (PULL, 0, Given::Length(3)),
            // Unread bytes around the end of the data.
            (receive(40, &[0xFF, 0xFF]), 0, Given::Nothing),
            (receive(4, &[16]), 0, Given::Nothing),
            (PULL, 9, Given::Dropped(48)),
            (receive(4, &[64]), 0, Given::Nothing),
            (PULL, 7, Given::Length(0)),
            (receive(4, &[16]), 0, Given::Nothing),
            (PULL, 8, Given::Length(0)),
        ],
        afterwards: (Slice::Receive, 0, &[16, 0, 0, 0, 16, 0, 0, 0, 0, 3]),
    },
    Bench {
        name: "44 bytes, one block",
        opening: tiny([44, 1], [44, 1]),
        opened: 0,
        steps: &[(Record::Room { start: 0 }, 25, Given::Nothing)],
        afterwards: (Slice::Transmit, 0, &[]),
    },
    Bench {
        name: "40 bytes, refused",
        opening: tiny([40, 1], [44, 1]),
        opened: 4,
        steps: &[(Record::Room { start: 0 }, 6, Given::Nothing)],
        afterwards: (Slice::Transmit, 0, &[]),
    },
];

/// Both sides must give what is stated.
pub fn compare(group: &mut Group, opponent: Opponent) {
    for bench in &BENCHES {
        let case = bench.case();
        let made = case.run(opponent);
        if !made.alike() {
            group.mismatch(|| failure::describe(bench.name, &case, opponent));
        }
        let rows: [Vec<Row>; 2] = [made.second_rows().collect(), made.other_rows().collect()];
        let (slice, ..) = bench.afterwards;
        for (rows, bytes) in rows.iter().zip(made.memory(slice)) {
            group.input();
            if !bench.holds(rows, bytes) {
                group.mismatch(|| {
                    let shown = case.show(&made, opponent);
                    format!("{}: not as stated\n{shown}", bench.name)
                });
            }
        }
    }
}

impl Bench {
    fn case(&self) -> Case {
        let mut script = self.opening.encode();
        for (record, ..) in self.steps {
            record.encode(&mut script);
        }
        let lengths = [self.opening.transmit(), self.opening.receive()]
            .map(|region| (region.end - region.begin) as usize);
        let [transmit, receive] = lengths;
        Case {
            script,
            lengths: Lengths {
                transmit,
                receive,
                buffer: 0,
                out: (1 + self.steps.len()) * ROW_BYTES,
            },
        }
    }

    fn holds(&self, rows: &[Row], bytes: &[u8]) -> bool {
        let opened = (self.opened, Given::Nothing);
        let steps = self.steps.iter().map(|&(_, number, given)| (number, given));
        let stated = [opened].into_iter().chain(steps);
        let stated = stated.map(|(number, given)| (number, given.values(), given.number()));
        let rows = rows.iter();
        let made = rows.map(|row| (row.number(), row.values().to_vec(), row.given()));
        let (_, offset, afterwards) = self.afterwards;
        stated.eq(made) && bytes[offset..].starts_with(afterwards)
    }
}
