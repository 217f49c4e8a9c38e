//! The archive beside the plain program: the jobs, their timing, the table, and the stack of each call.

pub mod defining;
pub mod depths;
pub mod expanding;
pub mod job;
pub mod looking_up;
pub mod page;
pub mod painting;
pub mod pictures;
pub mod reading;
pub mod stack;
pub mod stores;
pub mod streams;
pub mod timing;
pub mod writing;
