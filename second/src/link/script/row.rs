//! What a script answers for its opening and for each record.

use crate::link::end::Outcome;

/// Numbers of a row.
const NUMBERS: usize = 14;

/// Bytes of a row.
pub const ROW_BYTES: usize = 4 * NUMBERS;

pub const ROW_NAMES: [&str; NUMBERS] = [
    "number",
    "values",
    "value 1",
    "value 2",
    "value 3",
    "value 4",
    "place begin",
    "place size",
    "free transmit",
    "free receive",
    "sum transmit",
    "sum receive",
    "sum buffer",
    "given",
];

/// What sums are taken modulo.
const MODULUS: u32 = 65_521;

#[derive(Clone, Copy, PartialEq, Eq)]
pub struct Row(pub [u32; NUMBERS]);

impl Row {
    /// Where the sum of the receive bytes stands.
    pub const RECEIVE_SUM: usize = 11;

    pub fn new(outcome: &Outcome, free_blocks: [u32; 2], slices: [&[u8]; 3]) -> Self {
        let answer = &outcome.answer;
        let values = answer.given.values();
        let value = |at| values.get(at).copied().unwrap_or(0);
        let [free_transmit, free_receive] = free_blocks;
        let [transmit, receive, buffer] = slices.map(sum);
        Row([
            outcome.number,
            values.len() as u32,
            value(0),
            value(1),
            value(2),
            value(3),
            answer.place.start as u32,
            answer.place.len() as u32,
            free_transmit,
            free_receive,
            transmit,
            receive,
            buffer,
            answer.given.number(),
        ])
    }

    pub fn from_bytes(bytes: &[u8; ROW_BYTES]) -> Self {
        let (numbers, _) = bytes.as_chunks();
        let mut row = [0; NUMBERS];
        for (number, bytes) in row.iter_mut().zip(numbers) {
            *number = u32::from_le_bytes(*bytes);
        }
        Row(row)
    }

    pub fn to_bytes(self) -> [u8; ROW_BYTES] {
        let mut bytes = [0; ROW_BYTES];
        for (place, number) in bytes.chunks_exact_mut(4).zip(self.0) {
            place.copy_from_slice(&number.to_le_bytes());
        }
        bytes
    }

    /// The row with how far its sums are from those of the row before.
    pub fn change(&self, before: Option<&Row>) -> Row {
        const SUMS: [usize; 3] = [10, Row::RECEIVE_SUM, 12];
        let mut change = *self;
        for at in SUMS {
            let before = before.map_or(0, |row| row.0[at] % MODULUS);
            change.0[at] = (self.0[at] + MODULUS - before) % MODULUS;
        }
        change
    }

    pub fn number(&self) -> u32 {
        self.0[0]
    }

    /// As many as it says it has.
    pub fn values(&self) -> &[u32] {
        let [_, count, values @ .., _, _, _, _, _, _, _, _] = &self.0;
        &values[..values.len().min(*count as usize)]
    }

    /// What is given, by its number.
    pub fn given(&self) -> u32 {
        let [.., given] = self.0;
        given
    }
}

/// Every byte times its position, counted from 1.
fn sum(bytes: &[u8]) -> u32 {
    // In a chunk of 256 the products fit 16 bits, which is fast.
    const CHUNK: usize = 256;
    let mut total = 0;
    for (before, chunk) in (0..).step_by(CHUNK).zip(bytes.chunks(CHUNK)) {
        let mut plain = 0_u32;
        let mut weighted = 0_u32;
        for (position, &byte) in (1_u16..).zip(chunk) {
            plain += u32::from(byte);
            weighted += u32::from(position * u16::from(byte));
        }
        total += before * u64::from(plain) + u64::from(weighted);
    }
    (total % u64::from(MODULUS)) as u32
}
