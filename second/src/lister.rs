//! The subcommand `list`: one line an item.

use std::error::Error;
use std::io::{self, Read, Write};

use crate::answers::ReadingRefused;
use crate::commands::{Command, Value};
use crate::items::{items_of, Item};

pub const MOST_BYTES: usize = 4096;

pub fn run() -> Result<(), Box<dyn Error>> {
    let mut input = Vec::new();
    // One byte more than is listed tells whether more input follows.
    io::stdin()
        .lock()
        .take(MOST_BYTES as u64 + 1)
        .read_to_end(&mut input)?;
    let mut output = io::stdout().lock();
    output.write_all(listing_of(&input).as_bytes())?;
    output.flush()?;
    Ok(())
}

/// "The items are those of the bytes read, taken as the whole", whether more input follows or not.
pub fn listing_of(input: &[u8]) -> String {
    let read = &input[..input.len().min(MOST_BYTES)];
    let mut lines: Vec<String> = items_of(read).iter().map(line_of).collect();
    lines.push(if input.len() > MOST_BYTES {
        format!("M {MOST_BYTES}")
    } else {
        format!("E {}", read.len())
    });
    lines.iter().map(|line| format!("{line}\n")).collect()
}

pub fn line_of(item: &Item) -> String {
    match item {
        Item::Text { place, byte } => format!("T {place} {byte}"),
        Item::Del { place } => format!("D {place}"),
        Item::Command { start, command } => line_of_command(*start, command),
        Item::RefusedCommand { start, refused } => line_of_refused(*start, *refused),
    }
}

fn line_of_command(start: usize, command: &Command) -> String {
    let [first, second] = command.letters.map(char::from);
    let mut line = format!("C {start} {first}{second}");
    for number in command.values.iter().flat_map(numbers_of) {
        line.push_str(&format!(" {number}"));
    }
    line
}

fn line_of_refused(start: usize, refused: ReadingRefused) -> String {
    format!("R {start} {} {}", refused.refusal.number(), refused.place)
}

fn numbers_of(value: &Value) -> Vec<i64> {
    match value {
        Value::Integer(value) => vec![i64::from(*value)],
        Value::Point(point) => vec![i64::from(point.x), i64::from(point.y)],
        Value::Real { mantissa, exponent } => vec![i64::from(*mantissa), i64::from(*exponent)],
        Value::String(characters) => count_then_entries(characters),
        Value::Array(entries) => count_then_entries(entries),
        Value::Character(character) => vec![i64::from(*character)],
    }
}

/// "Arrays and strings: count, then entries."
fn count_then_entries<T: Copy + Into<i64>>(entries: &[T]) -> Vec<i64> {
    let mut numbers = vec![entries.len() as i64];
    numbers.extend(entries.iter().map(|&entry| entry.into()));
    numbers
}

#[cfg(test)]
mod tests {
    use super::*;

    #[test]
    fn the_example_of_document_01() {
        let input = [65, 27, 76, 70, 121, 64, 27, 75, 90, 27, 75, 65, 48];
        let output = "\
T 0 65
C 1 LF 0 100
R 6 2 8
C 9 KA 0
E 13
";
        assert_eq!(listing_of(&input), output);
    }

    #[test]
    fn each_kind_of_parameter_is_listed() {
        let lines = [
            (b"\x1bKA!".as_slice(), "C 0 KA -1"),
            (b"\x1bNR0A ", "C 0 NR 0 -16"),
            (b"\x1bRU012", "C 0 RU 0 1 2"),
            (b"\x1bRSy@@", "C 0 RS 0 100 0 100"),
            (b"\x1bMR?`@ ", "C 0 MR 15 -32768"),
            (b"\x1bLT0", "C 0 LT 0"),
            (b"\x1bLT2 \x1b?", "C 0 LT 2 32 127"),
            (b"\x1bRD2A0!", "C 0 RD 2 16 -1"),
            (b"\x1bKD!0", "C 0 KD -1 0"),
            (b"\x1bKO52H0H9", "C 0 KO 5 2 128 137"),
            (b"\x1bRP42*<", "C 0 RP 4 2 42 60"),
            (b"\x1bIQ \x7f", "C 0 IQ 32 127"),
        ];
        for (input, line) in lines {
            let listing = format!("{line}\nE {}\n", input.len());
            assert_eq!(listing_of(input), listing);
        }
    }

    #[test]
    fn no_input_has_the_last_line_alone() {
        assert_eq!(listing_of(&[]), "E 0\n");
    }

    #[test]
    fn input_of_4096_bytes_is_listed_to_its_end() {
        let listing = listing_of(&[10; 4096]);
        assert_eq!(listing.lines().count(), 4097);
        assert!(listing.ends_with("\nT 4095 10\nE 4096\n"));
    }

    #[test]
    fn more_input_is_told_and_not_listed() {
        let mut input = vec![10; 4092];
        input.extend(b"\x1bKA@0");
        let listing = listing_of(&input);
        // The command ends with the byte that is not read.
        assert!(listing.ends_with("\nT 4091 10\nR 4092 1 4096\nM 4096\n"));
        assert_eq!(listing.lines().count(), 4094);
    }
}
