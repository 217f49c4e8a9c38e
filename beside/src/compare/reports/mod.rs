//! Reports to the host, read and written.

mod making;
mod reading;
mod writing;

pub use making::{
    integer_report_read, integer_report_written, string_report_read, string_report_written,
};
pub use reading::{ReportRead, What as Read};
pub use writing::{ReportWritten, What as Written};
