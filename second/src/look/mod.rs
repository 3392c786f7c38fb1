//! What there is to look into, in words: call scripts and their rows, and the
//! bytes of a region.

mod record;
pub mod region;
pub mod script;
mod words;
