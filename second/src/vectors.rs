//! The subcommand `vectors`: the table from standard input, then the single values.

use std::error::Error;
use std::io::{self, Write};

use crate::{table, values};

pub fn run() -> Result<(), Box<dyn Error>> {
    let table = table::compare(&io::read_to_string(io::stdin())?)?;
    let mut output = io::stdout().lock();
    writeln!(output, "{table}")?;
    for line in values::lines() {
        writeln!(output, "{line}")?;
    }
    output.flush()?;
    Ok(())
}
