//! Streams read item by item.

mod dels;
mod making;
mod read;
mod single;
mod spelling;
mod whole;

pub use dels::by_ki;
pub use making::{damaged_stream, draw_ki, random_stream, valid_stream};
pub use single::{single_item, Single};
pub use spelling::{draw_fillers, spell_somehow};
