//! The comparison of the implementation in `link` with the proved code.

pub mod layout;
pub mod looking;
mod opponent;
mod plan;
mod proved;
mod random;
mod report;
pub mod ring;
pub mod search;
pub mod sheet;
mod tally;
pub mod traffic;
mod twin;
pub mod unit;

pub use opponent::Opponent;
pub use report::Report;

/// What decides how a comparison runs.
pub struct Settings {
    /// Decides all random inputs.
    pub seed: u64,
    /// Random inputs of the layout, of the ring, of the unit and of the sheet
    /// comparison, divided among their mixtures. The search comparison makes
    /// about a third as many.
    pub cases: u64,
    /// Calls of the random traffic, divided among its kinds.
    pub calls: u64,
    /// What the traffic, the units, the sheets and the searches are compared with.
    pub opponent: Opponent,
}
