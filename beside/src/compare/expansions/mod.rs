//! Macros expanded.

mod bodies;
mod expanding;
mod making;
mod watching;

pub use expanding::Expansion;
pub use making::expansion;
