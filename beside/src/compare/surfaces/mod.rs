//! Call sequences on a beam record and a surface.

mod calls;
mod ends;
mod making;
mod pictures;
mod reasons;
mod sequence;
mod side;

pub use ends::MET;
pub use making::{beam_records, surfaces};
pub use pictures::{picture, WAYS};
