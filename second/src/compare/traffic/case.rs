//! One script, run by both sides.

use crate::compare::proved;
use crate::compare::twin::Twin;
use crate::compare::Opponent;
use crate::link::end::Slice;
use crate::link::fault;
use crate::link::script::{self, Memory, Opening, Ran, Record, Row, ROW_BYTES};
use crate::look;

/// Bytes of the slices that a script is run with.
#[derive(Clone, Copy, PartialEq, Eq)]
pub struct Lengths {
    pub transmit: usize,
    pub receive: usize,
    pub buffer: usize,
    pub out: usize,
}

/// A script and what it is run with. The slices are all zero, so that the
/// script alone says what happens.
#[derive(Clone)]
pub struct Case {
    pub script: Vec<u8>,
    pub lengths: Lengths,
}

impl Opponent {
    fn run(self, script: &[u8], memory: Memory, out: &mut [u8]) -> usize {
        match self {
            Opponent::Proved => proved::script(script, memory, out),
            Opponent::Planted(fault) => {
                fault::with(fault, || script::run(script, memory, out)).written
            }
        }
    }
}

/// A script that both sides have run.
pub struct Made {
    transmit: Twin<u8>,
    receive: Twin<u8>,
    buffer: Twin<u8>,
    out: Twin<u8>,
    /// What the second implementation's run came to.
    pub ran: Ran,
    /// Bytes of rows that they returned: the second implementation, its
    /// opponent.
    returned: [usize; 2],
}

impl Case {
    pub fn run(&self, opponent: Opponent) -> Made {
        // What is in `out` before shows which bytes are not written.
        const BEFORE: u8 = 0x5C;
        let mut transmit = Twin::new(&vec![0; self.lengths.transmit]);
        let mut receive = Twin::new(&vec![0; self.lengths.receive]);
        let mut buffer = Twin::new(&vec![0; self.lengths.buffer]);
        let mut out = Twin::new(&vec![BEFORE; self.lengths.out]);

        let [second_transmit, other_transmit] = transmit.lend();
        let [second_receive, other_receive] = receive.lend();
        let [second_buffer, other_buffer] = buffer.lend();
        let [second_out, other_out] = out.lend();
        let second = Memory {
            transmit: second_transmit,
            receive: second_receive,
            buffer: second_buffer,
        };
        let other = Memory {
            transmit: other_transmit,
            receive: other_receive,
            buffer: other_buffer,
        };
        let ran = script::run(&self.script, second, second_out);
        let returned = [ran.written, opponent.run(&self.script, other, other_out)];
        Made {
            transmit,
            receive,
            buffer,
            out,
            ran,
            returned,
        }
    }

    /// The script in words, with the rows that both sides gave.
    pub fn show(&self, made: &Made, opponent: Opponent) -> String {
        let [second, other]: [Vec<Row>; 2] =
            [made.second_rows().collect(), made.other_rows().collect()];
        let sides = [("second", &second[..]), (opponent.name(), &other[..])];
        look::script::script(&self.script, sides, &made.ran)
    }

    /// The records that are whole and good.
    pub fn records(&self) -> impl Iterator<Item = Record<'_>> {
        Opening::decode(&self.script)
            .into_iter()
            .flat_map(|(_, records)| records)
    }

    pub fn opening(&self) -> Option<Opening> {
        let decoded = Opening::decode(&self.script).ok();
        decoded.map(|(opening, _)| opening)
    }
}

impl Made {
    pub fn alike(&self) -> bool {
        self.returned[0] == self.returned[1]
            && self.out.same()
            && self.transmit.same()
            && self.receive.same()
            && self.buffer.same()
    }

    /// The second implementation's rows.
    pub fn second_rows(&self) -> impl Iterator<Item = Row> + '_ {
        rows(self.out.second(), self.returned[0])
    }

    /// The opponent's rows.
    pub fn other_rows(&self) -> impl Iterator<Item = Row> + '_ {
        rows(self.out.other(), self.returned[1])
    }

    /// A slice as the second implementation left it, and as its opponent did.
    pub fn memory(&self, slice: Slice) -> [&[u8]; 2] {
        let twin = match slice {
            Slice::Transmit => &self.transmit,
            Slice::Receive => &self.receive,
            Slice::Buffer => &self.buffer,
        };
        [twin.second(), twin.other()]
    }

    /// Where the two sides differ, beside the rows.
    pub fn difference(&self) -> String {
        let [second, other] = self.returned;
        format!(
            "bytes returned: second {second}, other side {other}\n  \
             transmit: {}\n  receive: {}\n  buffer: {}\n  out: {}",
            self.transmit.difference(),
            self.receive.difference(),
            self.buffer.difference(),
            self.out.difference()
        )
    }
}

/// The rows in the first `returned` bytes, or in all if there are fewer.
fn rows(out: &[u8], returned: usize) -> impl Iterator<Item = Row> + '_ {
    let (rows, _) = out[..returned.min(out.len())].as_chunks::<ROW_BYTES>();
    rows.iter().map(Row::from_bytes)
}
