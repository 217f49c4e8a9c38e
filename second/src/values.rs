//! The single values, one line each.

use crate::answers::{Reading, Writing};
use crate::integers::{read_integer, write_integer};
use crate::points::{write_point, Point};
use crate::remembered::DelMode;
use crate::reports::write_integer_report;

const INTEGERS: [i32; 7] = [0, -1, 15, -16, 1200, 32767, -32768];
const REPORTS: [i32; 4] = [300, 600, 1200, -65535];

/// Each point with the one that is remembered.
const POINTS: [(Point, Point); 5] = [
    (Point { x: 128, y: 0 }, Point { x: 0, y: 0 }),
    (Point { x: 1, y: 0 }, Point { x: 0, y: 0 }),
    (Point { x: 4095, y: 3071 }, Point { x: 0, y: 0 }),
    (Point { x: 4095, y: 3071 }, Point { x: 4095, y: 3071 }),
    (Point { x: 0, y: 100 }, Point { x: 0, y: 0 }),
];

/// 32768, one more than an integer may be.
const ONE_TOO_MANY: [u8; 3] = [96, 64, 48];

pub fn lines() -> Vec<String> {
    let mut lines = Vec::new();
    for value in INTEGERS {
        let spelling = written(|bytes| write_integer(value, bytes, 0));
        lines.push(format!("integer {value} = {spelling}"));
    }
    for value in REPORTS {
        let spelling = written(|bytes| write_integer_report(value, bytes, 0));
        lines.push(format!("report {value} = {spelling}"));
    }
    for (point, from) in POINTS {
        let spelling = written(|bytes| write_point(point, from, bytes, 0));
        lines.push(format!(
            "point {} {} from {} {} = {spelling}",
            point.x, point.y, from.x, from.y
        ));
    }
    let answer = read(read_integer(&ONE_TOO_MANY, 0, DelMode::Data));
    lines.push(format!("read {} = {answer}", in_decimal(&ONE_TOO_MANY)));
    lines
}

fn written(write: impl FnOnce(&mut [u8]) -> Writing) -> String {
    let mut bytes = [0; 8];
    match write(&mut bytes) {
        Ok(end) => in_decimal(&bytes[..end]),
        Err(refusal) => format!("refusal {}", refusal.number()),
    }
}

fn read(answer: Reading<i32>) -> String {
    match answer {
        Ok(found) => found.value.to_string(),
        Err(refused) => format!("refusal {} at {}", refused.refusal.number(), refused.place),
    }
}

pub fn in_decimal(bytes: &[u8]) -> String {
    let numbers: Vec<String> = bytes.iter().map(u8::to_string).collect();
    numbers.join(" ")
}

#[cfg(test)]
mod tests {
    use super::*;

    #[test]
    fn the_lines_are_those_of_the_sheet() {
        let sheet = "\
integer 0 = 48
integer -1 = 33
integer 15 = 63
integer -16 = 65 32
integer 1200 = 65 75 48
integer 32767 = 95 127 63
integer -32768 = 96 64 32
report 300 = 32 50 60
report 600 = 32 69 56
report 1200 = 33 43 48
report -65535 = 95 95 47
point 128 0 from 0 0 = 96 33 64
point 1 0 from 0 0 = 97 96 64
point 4095 3071 from 0 0 = 55 111 127 63 95
point 4095 3071 from 4095 3071 = 95
point 0 100 from 0 0 = 121 64
read 96 64 48 = refusal 4 at 2";
        assert_eq!(lines().join("\n"), sheet);
    }

    #[test]
    fn other_answers_are_shown_too() {
        assert_eq!(written(|bytes| write_integer(32768, bytes, 0)), "refusal 8");
        assert_eq!(read(read_integer(&[33], 0, DelMode::Data)), "-1");
    }
}
