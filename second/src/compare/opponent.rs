//! What the second implementation is compared with.

use crate::link::fault::Fault;

#[derive(Clone, Copy)]
pub enum Opponent {
    Proved,
    /// The second implementation itself, with a fault.
    Planted(Fault),
}

impl Opponent {
    /// What it is called where answers are printed.
    pub fn name(self) -> &'static str {
        match self {
            Opponent::Proved => "proved",
            Opponent::Planted(_) => "planted",
        }
    }
}
