//! Macro stores: sequences of definitions, and look ups.

mod defining;
mod look_ups;
mod making;
mod pair;
mod smaller;

pub use defining::definitions;
pub use look_ups::look_up;
pub use making::{store_of, OUTSIDE};
pub use pair::Pair;
