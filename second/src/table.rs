//! The manual's own table of integers: a row a line, the value, a tab, the bytes in decimal with a blank between.

use std::fmt;

use crate::digest::Digest;
use crate::integers::{read_integer, write_integer};
use crate::remembered::DelMode;

struct Row {
    value: i32,
    bytes: Vec<u8>,
}

pub struct Comparison {
    rows: usize,
    written: usize,
    read: usize,
    digest: Digest,
}

impl fmt::Display for Comparison {
    fn fmt(&self, line: &mut fmt::Formatter) -> fmt::Result {
        write!(
            line,
            "table-d1 {} rows {} written {} read {}",
            self.rows,
            self.written,
            self.read,
            self.digest.result()
        )
    }
}

/// Compares every row of the table, or tells which line is no row.
pub fn compare(table: &str) -> Result<Comparison, String> {
    let mut comparison = Comparison {
        rows: 0,
        written: 0,
        read: 0,
        digest: Digest::new(),
    };
    for (index, line) in table.lines().enumerate() {
        let row =
            parse_row(line).ok_or_else(|| format!("line {} of the table is no row", index + 1))?;
        comparison.rows += 1;
        comparison.written += usize::from(is_written_as_printed(&row));
        comparison.read += usize::from(reads_back(&row));
        comparison.digest.signed(row.value);
        comparison.digest.bytes(&row.bytes);
    }
    Ok(comparison)
}

fn parse_row(line: &str) -> Option<Row> {
    let (value, bytes) = line.split_once('\t')?;
    Some(Row {
        value: value.parse().ok()?,
        bytes: bytes
            .split(' ')
            .map(|byte| byte.parse().ok())
            .collect::<Option<Vec<u8>>>()?,
    })
}

fn is_written_as_printed(row: &Row) -> bool {
    let mut bytes = [0; 8];
    match write_integer(row.value, &mut bytes, 0) {
        Ok(end) => bytes[..end] == row.bytes,
        Err(_) => false,
    }
}

/// The bytes are the value "with nothing left over".
fn reads_back(row: &Row) -> bool {
    match read_integer(&row.bytes, 0, DelMode::Data) {
        Ok(found) => found.value == row.value && found.next == row.bytes.len(),
        Err(_) => false,
    }
}

#[cfg(test)]
mod tests {
    use super::*;

    #[test]
    fn good_rows_are_written_and_read() {
        let comparison = compare("-1\t33\n1200\t65 75 48\n").unwrap();
        let mut digest = Digest::new();
        for number in [1, 1, 33, 0, 1200, 65, 75, 48] {
            digest.number(number);
        }
        let line = format!("table-d1 2 rows 2 written 2 read {}", digest.result());
        assert_eq!(comparison.to_string(), line);
    }

    #[test]
    fn rows_that_differ_are_not_counted() {
        // Another value; a spelling that is read but never written; a byte left over.
        let comparison = compare("5\t33\n0\t64 48\n0\t48 48\n").unwrap();
        assert_eq!(
            (comparison.rows, comparison.written, comparison.read),
            (3, 0, 1)
        );
    }

    #[test]
    fn minus_nought_is_read_and_never_written() {
        // The table has a row of its own for it. "Minus nought reads as 0", and 0 is written as 48.
        let comparison = compare("-0\t32\n").unwrap();
        let mut digest = Digest::new();
        digest.bytes(&[0, 0, 32]);
        let line = format!("table-d1 1 rows 0 written 1 read {}", digest.result());
        assert_eq!(comparison.to_string(), line);
    }

    #[test]
    fn lines_that_are_no_rows_are_named() {
        for line in ["", "5", "5\t", "5\t256", "5\t33  33", "x\t33"] {
            let message = compare(&format!("0\t48\n{line}\n")).err();
            assert_eq!(message.as_deref(), Some("line 2 of the table is no row"));
        }
    }
}
