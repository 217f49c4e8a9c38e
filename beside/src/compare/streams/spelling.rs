//! Spellings that are read and not always written: longer ones, pairs, and DELs that are filler. They are made here, so that a stream is valid
//! whatever the two sides say.

use second::commands::{Command, Value};
use second::parameters::{DEL, ESC};
use second::points::Point;
use second::remembered::{DelMode, Remembered};

use crate::compare::draws::Draws;

/// Two high bytes and the low byte, by the rule of document 01.
fn three_bytes(integer: i32) -> [u8; 3] {
    let magnitude = integer.unsigned_abs();
    let sign = if integer < 0 { 0 } else { 16 };
    [
        64 + magnitude / 1024,
        64 + magnitude / 16 % 64,
        32 + sign + magnitude % 16,
    ]
    .map(|byte| byte as u8)
}

/// "Leading high bytes of value 0 are accepted": here and there one stays.
pub fn spell_integer_somehow(draws: &mut Draws, integer: i32) -> Vec<u8> {
    let mut spelling = three_bytes(integer).to_vec();
    while spelling[0] == 64 && !draws.one_in(8) {
        spelling.remove(0);
    }
    spelling
}

/// HiY, Extra, LoY, HiX, LoX.
fn five_bytes(Point { x, y }: Point) -> [u8; 5] {
    [
        32 + y / 128,
        96 + 4 * (y % 4) + x % 4,
        96 + y / 4 % 32,
        32 + x / 128,
        64 + x / 4 % 32,
    ]
    .map(|byte| byte as u8)
}

/// What must be there, and here and there a byte that could be left out. "The 16 bit of Extra is ignored when read."
fn spell_point_somehow(draws: &mut Draws, point: Point, last: Point) -> Vec<u8> {
    let mut bytes = five_bytes(point);
    let old = five_bytes(last);
    let mut is_there = [0, 1, 2, 3].map(|place| bytes[place] != old[place] || draws.one_in(6));
    // "Extra needs LoY after it, and HiX needs LoY before it."
    is_there[2] |= is_there[1] || is_there[3];
    bytes[1] += 16 * draws.below(2) as u8;
    let mut spelling: Vec<u8> = (0..4)
        .filter(|&place| is_there[place])
        .map(|place| bytes[place])
        .collect();
    spelling.push(bytes[4]);
    spelling
}

fn spell_list(draws: &mut Draws, entries: Vec<Vec<u8>>) -> Vec<u8> {
    let mut spelling = spell_integer_somehow(draws, entries.len() as i32);
    spelling.extend(entries.concat());
    spelling
}

fn spell_value(draws: &mut Draws, value: &Value, last: Point) -> Vec<u8> {
    match value {
        Value::Integer(integer) => spell_integer_somehow(draws, *integer),
        Value::Point(point) => spell_point_somehow(draws, *point, last),
        Value::Real { mantissa, exponent } => {
            let mut spelling = spell_integer_somehow(draws, *mantissa);
            spelling.extend(spell_integer_somehow(draws, *exponent));
            spelling
        }
        Value::String(characters) => {
            let entries = characters.iter().map(|&character| vec![character]);
            spell_list(draws, entries.collect())
        }
        Value::Array(integers) => {
            let entries = integers.iter();
            let entries = entries.map(|&integer| spell_integer_somehow(draws, integer));
            let entries = entries.collect();
            spell_list(draws, entries)
        }
        Value::Character(character) => vec![*character],
    }
}

pub fn spell_somehow(draws: &mut Draws, command: &Command, remembered: Remembered) -> Vec<u8> {
    let mut spelling = vec![ESC];
    spelling.extend(command.letters);
    let mut last = remembered.point;
    for value in &command.values {
        let parameter = spell_value(draws, value, last);
        spelling.extend(with_pairs(draws, &parameter, remembered.mode));
        if let Value::Point(point) = value {
            last = *point;
        }
    }
    with_fillers(draws, spelling, remembered.mode)
}

/// "ESC followed by 63 reads as 127", and where a plain 127 is filler nothing else does.
fn with_pairs(draws: &mut Draws, parameter: &[u8], mode: DelMode) -> Vec<u8> {
    let mut paired = Vec::new();
    for &byte in parameter {
        if byte == DEL && (mode == DelMode::Filler || draws.one_in(2)) {
            paired.extend([ESC, 63]);
        } else {
            paired.push(byte);
        }
    }
    paired
}

/// Where 127 is filler, DELs between any two bytes of a command: behind the last they are its own no more.
pub fn with_fillers(draws: &mut Draws, spelling: Vec<u8>, mode: DelMode) -> Vec<u8> {
    if mode == DelMode::Data || draws.one_in(4) {
        return spelling;
    }
    // From one gap in two to one in thirty-two.
    let gaps = 2 << draws.below(5);
    let mut padded = Vec::new();
    for byte in spelling {
        if !padded.is_empty() && draws.one_in(gaps) {
            padded.extend(draw_fillers(draws));
        }
        padded.push(byte);
    }
    padded
}

pub fn draw_fillers(draws: &mut Draws) -> Vec<u8> {
    vec![DEL; 1 + draws.below(3)]
}
