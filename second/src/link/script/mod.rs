//! The call script: bytes that open an end and say what is called on it.

mod kind;
mod play;
mod reading;
mod record;
mod row;

pub use kind::{BodyLength, Kind};
pub use play::{run, Memory, Player, Ran};
pub use reading::{Stop, OPENING_BYTES, RECORD_HEADER};
pub use record::Record;
pub use row::{Row, ROW_BYTES, ROW_NAMES};

pub use crate::link::end::Opening;
