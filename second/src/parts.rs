//! The subcommand `parts`: what is looked up in two stores, and the bytes of the part handed back.

use std::error::Error;
use std::io::{self, Write};

use crate::answers::Refusal;
use crate::store::find;
use crate::values::in_decimal;

/// Macro 5 as the sheet has it, macro 300 of one byte, and room.
const VOLATILE: &[u8] = &[0, 10, 2, 72, 105, 2, 88, 1, 65, 0, 0, 0];

/// Another macro 5, macro 7 behind it, and macro 32767 up to the end.
const SAVED: &[u8] = &[0, 10, 1, 66, 0, 14, 3, 1, 2, 3, 255, 254, 1, 127];

/// An entry that its store ends in.
const MALFORMED: &[u8] = &[0, 10, 2, 72];

/// Each with the volatile store, the saved one and the number.
const LOOK_UPS: [(&[u8], &[u8], i32); 15] = [
    (VOLATILE, SAVED, 5),
    (VOLATILE, SAVED, 300),
    (VOLATILE, SAVED, 7),
    (VOLATILE, SAVED, 32767),
    (SAVED, VOLATILE, 5),
    (SAVED, SAVED, 7),
    (VOLATILE, SAVED, 6),
    (VOLATILE, &[], 7),
    (&[], &[], 0),
    (VOLATILE, SAVED, -1),
    (VOLATILE, SAVED, 32768),
    (VOLATILE, SAVED, 65541),
    (MALFORMED, SAVED, 7),
    (VOLATILE, MALFORMED, 300),
    (MALFORMED, MALFORMED, -1),
];

pub fn run() -> Result<(), Box<dyn Error>> {
    let mut output = io::stdout().lock();
    for (volatile, saved, number) in LOOK_UPS {
        writeln!(output, "{}", line(volatile, saved, number))?;
    }
    output.flush()?;
    Ok(())
}

/// "An empty part" goes with every refusal.
fn line(volatile: &[u8], saved: &[u8], number: i32) -> String {
    let found = find(volatile, saved, number);
    let answer = found.map_or_else(Refusal::number, |_| 0);
    let [volatile, saved, part] = [volatile, saved, found.unwrap_or(&[])].map(behind_blanks);
    format!("macro {number} of{volatile} and of{saved} gives {answer}:{part}")
}

fn behind_blanks(bytes: &[u8]) -> String {
    match bytes {
        [] => String::new(),
        _ => format!(" {}", in_decimal(bytes)),
    }
}

#[cfg(test)]
mod tests {
    use super::*;

    #[test]
    fn the_part_is_that_of_the_store_that_holds_the_macro() {
        let sheet = "macro 5 of 0 10 2 72 105 and of gives 0: 72 105";
        assert_eq!(line(&VOLATILE[..5], &[], 5), sheet);
        assert!(line(VOLATILE, SAVED, 7).ends_with(" gives 0: 1 2 3"));
        assert!(line(SAVED, VOLATILE, 5).ends_with(" gives 0: 66"));
    }

    #[test]
    fn a_refusal_has_no_part() {
        assert!(line(VOLATILE, SAVED, 6).ends_with(" gives 14:"));
        assert!(line(VOLATILE, SAVED, 32768).ends_with(" gives 8:"));
        assert!(line(VOLATILE, MALFORMED, 32768).ends_with(" gives 12:"));
    }
}
