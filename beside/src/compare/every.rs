//! Every number of a range and every short string of bytes: cases by their number, and not drawn. What is written is read back.

use second::integers::spell_integer;
use second::parameters::{DEL, ESC};
use second::reports::{write_integer_report, write_string_report};
use second::store::append_entry;

use super::commands::Writing;
use super::expansions::Expansion;
use super::reports::{Read, ReportRead, ReportWritten, Written};
use super::shrinking::compared;
use super::stores::Pair;
use super::streams::Single;
use super::tally::Row;
use super::values::four;

pub const INTEGERS: u64 = 80_001;
pub const COUNTS: u64 = 301;
pub const COUNTS_READ: u64 = 65_536;
pub const REPORTS: u64 = 132_001;
pub const REPORT_STRINGS: u64 = 261;
pub const POINTS: u64 = REMEMBERED.len() as u64 * 4 * 4096;
pub const POINTS_OUTSIDE: u64 = 44;
pub const MODES: u64 = 65_536;
/// None, one, two and three bytes.
pub const SHORT_STRINGS: u64 = 1 + (1 << 8) + (1 << 16) + (1 << 24);
pub const SIX_BYTES: u64 = (EDGES.len() as u64).pow(6);

const ORIGIN: [u16; 2] = [0, 0];

/// Remembered points that share some of their bytes with others and some not.
const REMEMBERED: [[u16; 2]; 5] = [[0, 0], [4095, 4095], [1, 2], [2048, 127], MIXED];
/// Its parts differ from one another, so that it shows which of them were kept.
const MIXED: [u16; 2] = [1365, 2730];

/// 127 as data, and as filler.
const BOTH: [u16; 2] = [0, 1];

/// Both sides of the bounds that the rules draw between bytes.
const EDGES: [u8; 12] = [0, 27, 31, 32, 63, 64, 95, 96, 111, 127, 128, 255];

const BLANK: u8 = 255;
const LIST_ROOM: usize = 256;
/// No command with up to 300 characters is longer, be each of them a pair.
const OUT_ROOM: usize = 700;

type Outcome = Result<(), String>;

/// From 40,000 below nought to 40,000 above.
pub fn integer(number: u64, row: &mut Row) -> Outcome {
    written_and_read(*b"KA", &[number as i32 - 40_000], &[], ORIGIN, row)
}

pub fn count(number: u64, row: &mut Row) -> Outcome {
    written_and_read(*b"LT", &[], &characters(number as i32), ORIGIN, row)
}

/// An integer where a count should be, with as many characters behind it as a count may name.
pub fn count_read(number: u64, row: &mut Row) -> Outcome {
    let spelling = spell_integer(number as i32 - 32_768).expect("every integer has a spelling");
    let parameters = [spelling, vec![b' '; LIST_ROOM]].concat();
    read_in_both(*b"LT", &parameters, ORIGIN, row)
}

/// From 66,000 below nought to 66,000 above.
pub fn report(number: u64, row: &mut Row) -> Outcome {
    let value = number as i32 - 66_000;
    let mut bytes = vec![BLANK; 8];
    // Where it is refused the blanks are read.
    let _ = write_integer_report(value, &mut bytes, 1);
    let what = Written::Integer(value);
    report_written_and_read(what, bytes, Read::Integer, row)
}

pub fn report_string(number: u64, row: &mut Row) -> Outcome {
    let entries = characters(number as i32);
    let mut bytes = vec![BLANK; 300];
    let _ = write_string_report(&entries, &mut bytes, 1);
    let what = Written::String(entries);
    report_written_and_read(what, bytes, Read::String { room: 260 }, row)
}

/// For each remembered point (x, y) and each c the points (c, y), (x, c), (c, c) and (c, 4095 - c).
pub fn point(number: u64, row: &mut Row) -> Outcome {
    let remembered = REMEMBERED[number as usize / (4 * 4096)];
    let [x, y] = remembered.map(i32::from);
    let c = (number / 4 % 4096) as i32;
    let to = [[c, y], [x, c], [c, c], [c, 4095 - c]][number as usize % 4];
    written_and_read(*b"LF", &to, &[], remembered, row)
}

/// For each c from 4090 to 4100 a point and a remembered one with c as x, and with c as y.
pub fn point_outside(number: u64, row: &mut Row) -> Outcome {
    let c = 4090 + (number / 4) as u16;
    let (to, remembered) = [
        ([c, 5], ORIGIN),
        ([5, c], ORIGIN),
        ([5, 5], [c, 0]),
        ([5, 5], [0, c]),
    ][number as usize % 4];
    written_and_read(*b"LF", &to.map(i32::from), &[], remembered, row)
}

/// Each number in the place of the mode: a DEL read, a command read and written, and a macro expanded.
pub fn mode(number: u64, row: &mut Row) -> Outcome {
    let remembered = [MIXED[0], MIXED[1], number as u16];
    read_from(vec![DEL], remembered, row)?;
    read_from(b"\x1bKA\x7f0".to_vec(), remembered, row)?;
    let values = [1008, 0, 0, 0];
    write_from(*b"KA", values, &[], remembered, row)?;
    let mut volatile = Vec::new();
    append_entry(&mut volatile, 1, b"\x7f");
    let expansion = Expansion {
        stores: Pair {
            volatile,
            saved: vec![],
        },
        number: 1,
        remembered,
        room: 1,
        order: None,
    };
    compared(expansion, row)
}

pub fn integer_bytes(number: u64, row: &mut Row) -> Outcome {
    read_where_it_matters(*b"KA", &short_string(number), ORIGIN, row)
}

pub fn point_bytes(number: u64, row: &mut Row) -> Outcome {
    read_where_it_matters(*b"LF", &short_string(number), MIXED, row)
}

pub fn report_bytes(number: u64, row: &mut Row) -> Outcome {
    read_report(short_string(number), 0, row)
}

/// Read as an integer, a count, a point and a report. Behind a count the bytes end, or there are as many characters as it may name.
pub fn six_bytes(number: u64, row: &mut Row) -> Outcome {
    let bytes = six_edges(number);
    let with_characters = [&bytes[1..], &[b' '; LIST_ROOM]].concat();
    read_where_it_matters(*b"KA", &bytes, ORIGIN, row)?;
    read_where_it_matters(*b"LT", &bytes[1..], ORIGIN, row)?;
    read_where_it_matters(*b"LT", &with_characters, ORIGIN, row)?;
    read_where_it_matters(*b"LF", &bytes, MIXED, row)?;
    read_report(bytes, 2, row)
}

/// In each mode.
fn written_and_read(
    letters: [u8; 2],
    numbers: &[i32],
    list: &[i32],
    [x, y]: [u16; 2],
    row: &mut Row,
) -> Outcome {
    for mode in BOTH {
        let remembered = [x, y, mode];
        let spelling = write_from(letters, four(numbers), list, remembered, row)?;
        // Where it is refused a blank is read.
        let refused = || [&[ESC], &letters[..], &[BLANK]].concat();
        read_from(spelling.unwrap_or_else(refused), remembered, row)?;
    }
    Ok(())
}

/// What was written, where it was.
fn write_from(
    letters: [u8; 2],
    values: [i32; 4],
    list: &[i32],
    remembered: [u16; 3],
    row: &mut Row,
) -> Result<Option<Vec<u8>>, String> {
    let writing = Writing {
        letters,
        values,
        list: list.to_vec(),
        remembered,
        room: OUT_ROOM,
    };
    let spelling = writing.spelling();
    compared(writing, row)?;
    Ok(spelling)
}

fn read_in_both(letters: [u8; 2], parameters: &[u8], point: [u16; 2], row: &mut Row) -> Outcome {
    for mode in BOTH {
        read(letters, parameters, point, mode, row)?;
    }
    Ok(())
}

/// In mode 1 too where there is a DEL, or so few bytes that it costs little.
fn read_where_it_matters(
    letters: [u8; 2],
    parameters: &[u8],
    point: [u16; 2],
    row: &mut Row,
) -> Outcome {
    match parameters.len() < 3 || parameters.contains(&DEL) {
        true => read_in_both(letters, parameters, point, row),
        false => read(letters, parameters, point, 0, row),
    }
}

fn read(
    letters: [u8; 2],
    parameters: &[u8],
    [x, y]: [u16; 2],
    mode: u16,
    row: &mut Row,
) -> Outcome {
    let bytes = [&[ESC], &letters[..], parameters].concat();
    read_from(bytes, [x, y, mode], row)
}

fn read_from(bytes: Vec<u8>, remembered: [u16; 3], row: &mut Row) -> Outcome {
    let single = Single {
        bytes,
        start: 0,
        remembered,
        room: LIST_ROOM,
    };
    compared(single, row)
}

fn report_written_and_read(what: Written, bytes: Vec<u8>, back: Read, row: &mut Row) -> Outcome {
    let room = bytes.len();
    let start = 1;
    compared(ReportWritten { what, room, start }, row)?;
    let what = back;
    compared(ReportRead { bytes, start, what }, row)
}

fn read_report(bytes: Vec<u8>, start: usize, row: &mut Row) -> Outcome {
    let what = Read::Integer;
    compared(ReportRead { bytes, start, what }, row)
}

/// So many, of all sorts.
fn characters(count: i32) -> Vec<i32> {
    (0..count).map(|i| 32 + (7 * i + count) % 96).collect()
}

/// The strings of no byte, one, two and three bytes, in this order.
fn short_string(number: u64) -> Vec<u8> {
    let mut left = number;
    let mut length = 0;
    while left >= 1 << (8 * length) {
        left -= 1 << (8 * length);
        length += 1;
    }
    left.to_be_bytes()[8 - length..].to_vec()
}

/// The digits of the number to the base 12, each as an edge.
fn six_edges(number: u64) -> Vec<u8> {
    let base = EDGES.len() as u64;
    let digit = |place| number / base.pow(place) % base;
    (0..6)
        .rev()
        .map(|place| EDGES[digit(place) as usize])
        .collect()
}

#[cfg(test)]
mod tests {
    use super::*;
    use std::collections::BTreeSet;

    #[test]
    fn the_short_strings_are_all_that_there_are() {
        assert_eq!(short_string(0), []);
        assert_eq!(short_string(1), [0]);
        assert_eq!(short_string(256), [255]);
        assert_eq!(short_string(257), [0, 0]);
        assert_eq!(short_string(65_792), [255, 255]);
        assert_eq!(short_string(65_793), [0, 0, 0]);
        assert_eq!(short_string(SHORT_STRINGS - 1), [255, 255, 255]);
        let strings: BTreeSet<Vec<u8>> = (0..70_000).map(short_string).collect();
        assert_eq!(strings.len(), 70_000);
    }

    #[test]
    fn the_six_bytes_are_all_edges() {
        assert_eq!(six_edges(0), [0; 6]);
        assert_eq!(six_edges(1), [0, 0, 0, 0, 0, 27]);
        assert_eq!(six_edges(SIX_BYTES - 1), [255; 6]);
    }

    #[test]
    fn a_number_outside_is_refused_and_one_inside_is_written_and_read() {
        let mut row = Row::default();
        integer(0, &mut row).unwrap();
        integer(7_232, &mut row).unwrap();
        // In each mode 8 for the writing and 3 for the blank; then the least integer.
        assert_eq!(row.to_string(), "0 cases, 8 answers: [0] 4 [3] 2 [8] 2");
    }

    #[test]
    fn the_last_case_of_each_runs() {
        let mut row = Row::default();
        count(COUNTS - 1, &mut row).unwrap();
        count_read(COUNTS_READ - 1, &mut row).unwrap();
        report(REPORTS - 1, &mut row).unwrap();
        report_string(REPORT_STRINGS - 1, &mut row).unwrap();
        point(POINTS - 1, &mut row).unwrap();
        point_outside(POINTS_OUTSIDE - 1, &mut row).unwrap();
    }
}
