//! The second program: it follows the rules of document 01, and those requests of document 02 that have landed (K1, K2), with no code of the
//! proved crates, so that the two can be compared.

pub mod answers;
pub mod captures;
pub mod commands;
#[cfg(test)]
mod del_as_filler;
pub mod digest;
pub mod draws;
#[cfg(test)]
mod end_of_row;
pub mod expansion;
pub mod forms;
pub mod integers;
pub mod items;
pub mod lister;
pub mod made;
pub mod parameters;
pub mod parts;
pub mod pixels;
pub mod points;
pub mod record;
pub mod remembered;
pub mod reports;
pub mod store;
pub mod table;
pub mod values;
pub mod vectors;
