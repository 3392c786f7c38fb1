//! The proved code, reached as the panel program reaches it.

mod layout;
mod ring;
mod script;
mod search;
mod sheet;
mod unit;

pub use layout::layout;
pub use ring::{is_start, pull, push, start};
pub use script::script;
pub use search::search;
pub use sheet::pick;
pub use unit::{unit_open, unit_push, unit_receive, unit_start};
