//! The comparison at length: the archive and the second program on the same inputs (docs/COMPARISON.md).

mod case;
mod draws;
mod every;
mod fence;
mod kinds;
mod names;
pub mod options;
mod progress;
mod remembered;
pub mod running;
mod shrinking;
mod tally;
mod values;

mod commands;
mod expansions;
mod reports;
mod stores;
mod streams;
mod surfaces;
