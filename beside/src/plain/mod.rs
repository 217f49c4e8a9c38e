//! The same jobs as a plain program: safe Rust, lent slices, no heap. The benchmark sets the archive beside it.

pub mod commands;
pub mod expansion;
pub mod integers;
pub mod items;
pub mod pixels;
pub mod points;
pub mod record;
pub mod refusals;
pub mod remembered;
pub mod store;
pub mod table;
pub mod wire;
pub mod writing;
