//! The faults there are, a file for each group. As an enum is written in one
//! piece, each file is a macro that puts its group behind those given to it,
//! and hands all of them to the next one.

#[macro_use]
mod ends;
#[macro_use]
mod searches;
#[macro_use]
mod sheets;
#[macro_use]
mod units;

ends! { units sheets searches faults }
