//! The archive beside independent programs.

pub mod archive;
pub mod bench;
pub mod compare;
mod picture;
pub mod plain;
