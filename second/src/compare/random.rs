//! Random numbers that a seed repeats: splitmix64.

pub struct Random {
    state: u64,
}

impl Random {
    /// Each stream of a seed gives its own numbers, so that one group of
    /// checks does not move the inputs of the next.
    pub fn new(seed: u64, stream: u64) -> Self {
        let mut random = Random { state: seed };
        random.state = random.next().wrapping_add(stream);
        random.state = random.next();
        random
    }

    fn next(&mut self) -> u64 {
        self.state = self.state.wrapping_add(0x9E37_79B9_7F4A_7C15);
        let mut mixed = self.state;
        mixed = (mixed ^ (mixed >> 30)).wrapping_mul(0xBF58_476D_1CE4_E5B9);
        mixed = (mixed ^ (mixed >> 27)).wrapping_mul(0x94D0_49BB_1331_11EB);
        mixed ^ (mixed >> 31)
    }

    /// Any 32-bit number.
    pub fn any(&mut self) -> u32 {
        (self.next() >> 32) as u32
    }

    /// A number from 0 up to, not including, `bound`.
    pub fn below(&mut self, bound: u64) -> u64 {
        ((u128::from(self.next()) * u128::from(bound)) >> 64) as u64
    }

    /// A number from `low` to `high`, both included.
    pub fn between(&mut self, low: i64, high: i64) -> i64 {
        low + self.below(low.abs_diff(high) + 1) as i64
    }

    /// True once in `times`, on average.
    pub fn one_in(&mut self, times: u64) -> bool {
        self.below(times) == 0
    }

    pub fn pick<T: Copy>(&mut self, choices: &[T]) -> T {
        choices[self.below(choices.len() as u64) as usize]
    }

    /// Takes one out, if there are any; the others may change places.
    pub fn take<T>(&mut self, from: &mut Vec<T>) -> Option<T> {
        let count = from.len() as u64;
        (count > 0).then(|| from.swap_remove(self.below(count) as usize))
    }

    pub fn bytes(&mut self, length: usize) -> Vec<u8> {
        (0..length).map(|_| self.any() as u8).collect()
    }
}

/// Random bytes, made once: slices of them are faster than new ones for every
/// call.
pub struct Pool {
    bytes: Vec<u8>,
}

impl Pool {
    /// Twice the largest region.
    const LENGTH: usize = 1 << 21;

    pub fn new(random: &mut Random) -> Self {
        let numbers = (0..Self::LENGTH / 4).map(|_| random.any());
        Pool {
            bytes: numbers.flat_map(u32::to_le_bytes).collect(),
        }
    }

    /// A slice from a random place; of at most `LENGTH` bytes.
    pub fn slice(&self, random: &mut Random, length: usize) -> &[u8] {
        let first = random.below((self.bytes.len() - length) as u64 + 1) as usize;
        &self.bytes[first..first + length]
    }
}
