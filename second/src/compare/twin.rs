//! Memory lent to a call, once for each side: the second implementation, and
//! the proved one or whatever else it is compared with.

use std::fmt::LowerHex;

/// What an answer holds before a call, so that a value not written shows.
pub const PATTERN: u32 = 0xA5C3_5A3C;

/// Elements around the lent ones that no call may touch.
const MARGIN: usize = 16;

/// Two copies of the same memory, alike before a call and to be alike after it.
pub struct Twin<T> {
    second: Vec<T>,
    other: Vec<T>,
}

impl<T: Copy + PartialEq + From<u8> + LowerHex> Twin<T> {
    pub fn new(lent: &[T]) -> Self {
        let margin = [T::from(0xA5); MARGIN];
        let second = [&margin, lent, &margin].concat();
        Twin {
            other: second.clone(),
            second,
        }
    }

    /// The slices to lend: to the second implementation, to the other side.
    pub fn lend(&mut self) -> [&mut [T]; 2] {
        [&mut self.second, &mut self.other].map(|memory| {
            let end = memory.len() - MARGIN;
            &mut memory[MARGIN..end]
        })
    }

    /// The lent slice as the second implementation left it.
    pub fn second(&self) -> &[T] {
        &self.second[MARGIN..self.second.len() - MARGIN]
    }

    /// The lent slice as the other side left it.
    pub fn other(&self) -> &[T] {
        &self.other[MARGIN..self.other.len() - MARGIN]
    }

    /// Margins included.
    pub fn same(&self) -> bool {
        self.second == self.other
    }

    /// Makes both alike again, so that one difference does not cause more.
    pub fn rejoin(&mut self) {
        self.other.copy_from_slice(&self.second);
    }

    /// Where the two differ first, counted from the first lent element.
    pub fn difference(&self) -> String {
        let mut pairs = self.second.iter().zip(&self.other);
        let Some(at) = pairs.position(|(second, other)| second != other) else {
            return "no difference".to_string();
        };
        format!(
            "first difference at {}, second {:#x}, other side {:#x}",
            at as i64 - MARGIN as i64,
            self.second[at],
            self.other[at]
        )
    }
}
