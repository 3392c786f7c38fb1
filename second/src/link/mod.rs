//! The independent implementation: one end of a link, a plain unit, sheets, and
//! the search for free blocks, from the rules alone.

pub mod end;
pub mod fault;
pub mod layout;
pub mod outcome;
pub mod refusal;
pub mod ring;
pub mod script;
pub mod search;
pub mod sheet;
pub mod unit;
