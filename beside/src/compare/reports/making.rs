//! The reports that are read and written.

use super::reading::{self, ReportRead};
use super::writing::{self, ReportWritten};
use crate::compare::draws::Draws;
use crate::compare::values::{draw_character, draw_count};

const ODD_VALUES: [i32; 14] = [
    0,
    -1,
    15,
    16,
    -16,
    1023,
    1024,
    65535,
    -65535,
    65536,
    -65536,
    131072,
    i32::MIN,
    i32::MAX,
];
const ODD_LENGTHS: [i32; 8] = [-1, 0, 255, 256, 257, 258, 512, 65535];
const ODD_BYTES: [u8; 12] = [0, 27, 31, 32, 47, 48, 63, 64, 95, 96, 127, 128];
const ODD_ENTRIES: [i32; 8] = [31, 32, 127, 128, -1, 288, i32::MIN, i32::MAX];
const STARTS_OUTSIDE: [usize; 4] = [1, 2, 1 << 32, usize::MAX];

/// The three bytes of a report's integer, of a magnitude up to 65535, by the rule of document 01.
fn three_bytes(value: i32) -> [u8; 3] {
    let magnitude = value.unsigned_abs();
    let sign = if value < 0 { 0 } else { 16 };
    [
        32 + magnitude / 1024 % 64,
        32 + magnitude / 16 % 64,
        32 + sign + magnitude % 16,
    ]
    .map(|byte| byte as u8)
}

fn draw_value(draws: &mut Draws) -> i32 {
    match draws.below(8) {
        0 => draws.any_integer(),
        1..=2 => draws.one_of(&ODD_VALUES),
        3 => draws.between(-40, 40),
        _ => draws.between(-65600, 65600),
    }
}

pub fn integer_report_read(draws: &mut Draws) -> ReportRead {
    let report = three_bytes(draw_value(draws)).to_vec();
    read(draws, report, reading::What::Integer)
}

pub fn string_report_read(draws: &mut Draws) -> ReportRead {
    let count = draw_count(draws);
    let length = match draws.below(12) {
        0 => draws.one_of(&ODD_LENGTHS),
        1 => draw_value(draws),
        _ => count as i32,
    };
    let mut report = three_bytes(length).to_vec();
    report.extend((0..count).map(|_| draw_character(draws)));
    let room = match draws.below(4) {
        0 => draws.below(count + 1),
        1 => count.saturating_sub(1),
        _ => count + draws.below(4),
    };
    read(draws, report, reading::What::String { room })
}

/// The report behind some bytes and before some others, damaged now and then.
fn read(draws: &mut Draws, report: Vec<u8>, what: reading::What) -> ReportRead {
    let before = draws.below(3);
    let mut bytes: Vec<u8> = (0..before).map(|_| draws.byte()).collect();
    bytes.extend(report);
    for _ in 0..draws.below(3) {
        damage(draws, &mut bytes);
    }
    bytes.extend((0..draws.below(3)).map(|_| draws.byte()));
    let start = match draws.below(12) {
        0 => bytes.len().saturating_add(draws.one_of(&STARTS_OUTSIDE)),
        1 => draws.below(bytes.len() + 1),
        _ => before.min(bytes.len()),
    };
    ReportRead { bytes, start, what }
}

fn damage(draws: &mut Draws, bytes: &mut Vec<u8>) {
    let place = draws.below(bytes.len() + 1);
    match draws.below(4) {
        0 => bytes.truncate(place),
        1 if place < bytes.len() => bytes[place] = draws.byte(),
        2 if place < bytes.len() => bytes[place] = draws.one_of(&ODD_BYTES),
        _ => {}
    }
}

pub fn integer_report_written(draws: &mut Draws) -> ReportWritten {
    let what = writing::What::Integer(draw_value(draws));
    written(draws, what, 3)
}

pub fn string_report_written(draws: &mut Draws) -> ReportWritten {
    let count = draw_count(draws);
    let mut list: Vec<i32> = (0..count)
        .map(|_| i32::from(draw_character(draws)))
        .collect();
    match draws.below(8) {
        0 => list.resize(draws.one_of(&[255, 256, 257, 300]), 65),
        1..=2 if count > 0 => list[draws.below(count)] = draws.one_of(&ODD_ENTRIES),
        _ => {}
    }
    let length = 3 + list.len();
    written(draws, writing::What::String(list), length)
}

/// With room for the report, a little more or a little less, from a start on.
fn written(draws: &mut Draws, what: writing::What, length: usize) -> ReportWritten {
    let start = draws.below(4);
    let room = match draws.below(5) {
        0 => draws.below(start + length),
        1 => start + length - 1,
        2 => draws.below(4),
        _ => start + length + draws.below(4),
    };
    let start = match draws.below(16) {
        0 => room.saturating_add(draws.one_of(&STARTS_OUTSIDE)),
        _ => start,
    };
    ReportWritten { what, room, start }
}
