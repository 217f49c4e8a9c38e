//! Commands written.

mod making;
mod pairs;
mod writing;

pub use making::{troubled_command, valid_command};
pub use writing::Writing;
