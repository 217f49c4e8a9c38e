//! Commands that can be written, drawn with a liking for the ends of each range.

use second::commands::{Command, Value};
use second::forms::{Parameter, FORMS};
use second::points::Point;

use super::draws::Draws;

const INTEGERS: [i32; 22] = [
    0, 1, -1, 15, 16, -15, -16, 255, 256, 257, 1007, 1008, 1023, 1024, -1023, -1024, 16383, 16384,
    32766, 32767, -32767, -32768,
];
const COORDINATES: [u32; 14] = [
    0, 1, 3, 4, 123, 124, 127, 128, 129, 2047, 2048, 4092, 4094, 4095,
];
const LONGEST: usize = 256;

/// The integer with the most bytes, one of them 127.
const LONG_INTEGER: i32 = 32767;
const DEL: u8 = 127;

pub fn draw_integer(draws: &mut Draws) -> i32 {
    match draws.below(4) {
        0 => draws.one_of(&INTEGERS),
        1 => draws.between(-20, 20),
        2 => draws.between(-1100, 1100),
        _ => draws.between(-32768, 32767),
    }
}

fn draw_coordinate(draws: &mut Draws, last: u32) -> u32 {
    match draws.below(4) {
        0 => draws.one_of(&COORDINATES),
        // The last one with other low bits, so that only some of a point's bytes are needed.
        1 => last ^ draws.below(4) as u32,
        2 => last,
        _ => draws.below(4096) as u32,
    }
}

pub fn draw_point(draws: &mut Draws, last: Point) -> Point {
    Point {
        x: draw_coordinate(draws, last.x),
        y: draw_coordinate(draws, last.y),
    }
}

pub fn draw_character(draws: &mut Draws) -> u8 {
    match draws.below(8) {
        0 => draws.one_of(&[32, 63, 64, 95, 96, 127, 127, 126]),
        _ => draws.between(32, 127) as u8,
    }
}

/// Mostly short, now and then as long as may be.
pub fn draw_count(draws: &mut Draws) -> usize {
    match draws.below(64) {
        0 => LONGEST - draws.below(3),
        1 => draws.below(LONGEST + 1),
        2..=20 => draws.below(20),
        _ => draws.below(4),
    }
}

fn draw_list<T>(draws: &mut Draws, draw_entry: fn(&mut Draws) -> T) -> Vec<T> {
    let count = draw_count(draws);
    (0..count).map(|_| draw_entry(draws)).collect()
}

fn draw_value(draws: &mut Draws, parameter: Parameter, last: Point) -> Value {
    match parameter {
        Parameter::Integer => Value::Integer(draw_integer(draws)),
        Parameter::Point => Value::Point(draw_point(draws, last)),
        Parameter::Real => Value::Real {
            mantissa: draw_integer(draws),
            exponent: draw_integer(draws),
        },
        Parameter::String => Value::String(draw_list(draws, draw_character)),
        Parameter::Array => Value::Array(draw_list(draws, draw_integer)),
        Parameter::Character => Value::Character(draw_character(draws)),
    }
}

/// Any of the 21 commands with as many bytes as it may have, from the point (0,0).
pub fn draw_longest(draws: &mut Draws) -> Command {
    let form = &FORMS[draws.below(FORMS.len())];
    let mut corners = [(4095, 4095), (0, 124)].into_iter();
    let values = form.parameters.iter().map(|parameter| match parameter {
        Parameter::Integer => Value::Integer(LONG_INTEGER),
        Parameter::Point => {
            let (x, y) = corners.next().expect("no command has more than two points");
            Value::Point(Point { x, y })
        }
        Parameter::Real => Value::Real {
            mantissa: LONG_INTEGER,
            exponent: LONG_INTEGER,
        },
        Parameter::String => Value::String(vec![DEL; LONGEST]),
        Parameter::Array => Value::Array(vec![LONG_INTEGER; LONGEST]),
        Parameter::Character => Value::Character(DEL),
    });
    Command {
        letters: form.letters,
        values: values.collect(),
    }
}

/// Any of the 21 commands.
pub fn draw_command(draws: &mut Draws, last: Point) -> Command {
    let form = &FORMS[draws.below(FORMS.len())];
    let values = form.parameters.iter();
    Command {
        letters: form.letters,
        values: values
            .map(|&parameter| draw_value(draws, parameter, last))
            .collect(),
    }
}

/// The parameters that are numbers, in the order of the header, and the entries of a string or an array.
pub fn numbers_and_list(command: &Command) -> (Vec<i32>, Vec<i32>) {
    let mut numbers = Vec::new();
    let mut list = Vec::new();
    for value in &command.values {
        match value {
            Value::Integer(integer) => numbers.push(*integer),
            Value::Point(point) => numbers.extend([point.x as i32, point.y as i32]),
            Value::Real { mantissa, exponent } => numbers.extend([*mantissa, *exponent]),
            Value::Character(character) => numbers.push(i32::from(*character)),
            Value::String(characters) => list.extend(characters.iter().map(|&c| i32::from(c))),
            Value::Array(entries) => list.extend(entries),
        }
    }
    (numbers, list)
}

/// The parameters that are numbers as the header has them: four, with 0 in what a command does not have.
pub fn four(numbers: &[i32]) -> [i32; 4] {
    let mut four = [0; 4];
    four[..numbers.len()].copy_from_slice(numbers);
    four
}
