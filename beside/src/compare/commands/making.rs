//! The commands that are written: valid ones, and ones with up to three things wrong.

use second::commands::Command;
use second::remembered::{DelMode, Remembered};

use super::writing::Writing;
use crate::compare::draws::Draws;
use crate::compare::remembered::{draw_inside, numbers_of, put_outside};
use crate::compare::streams::draw_ki;
use crate::compare::values::{draw_command, draw_integer, draw_longest, four, numbers_and_list};

const ODD_VALUES: [i32; 14] = [
    -1,
    4095,
    4096,
    31,
    32,
    127,
    128,
    256,
    32767,
    32768,
    -32768,
    -32769,
    i32::MIN,
    i32::MAX,
];
const MORE_ROOM: usize = 6;

/// With room enough.
pub fn valid_command(draws: &mut Draws) -> Writing {
    let mode = draws.one_of(&[DelMode::Data, DelMode::Filler]);
    let (remembered, command) = draw_from(draws, mode);
    let (numbers, list) = numbers_and_list(&command);
    let mut writing = Writing {
        letters: command.letters,
        values: four(&numbers),
        list,
        remembered: numbers_of(remembered),
        room: 0,
    };
    writing.room = writing.spelling().map_or(0, |spelling| spelling.len()) + draws.below(MORE_ROOM);
    // Numbers that the command does not have, and the list of one that has none, are not looked at.
    for value in &mut writing.values[numbers.len()..] {
        *value = draws.any_integer();
    }
    writing
}

/// A command, and what is remembered before it: now and then KI, or a command with as many bytes as it may have.
fn draw_from(draws: &mut Draws, mode: DelMode) -> (Remembered, Command) {
    match draws.below(128) {
        0 => (Remembered::fresh_in(mode), draw_longest(draws)),
        1..=4 => (draw_inside(draws, mode), draw_ki(draws)),
        _ => {
            let remembered = draw_inside(draws, mode);
            (remembered, draw_command(draws, remembered.point))
        }
    }
}

pub fn troubled_command(draws: &mut Draws) -> Writing {
    let mut writing = valid_command(draws);
    for _ in 0..draws.below(4) {
        trouble(draws, &mut writing);
    }
    writing
}

fn trouble(draws: &mut Draws, writing: &mut Writing) {
    match draws.below(8) {
        0 => writing.letters[draws.below(2)] = draw_letter(draws),
        1..=2 => writing.values[draws.below(4)] = draw_value(draws),
        3 => put_outside(draws, &mut writing.remembered),
        4 => lengthen(draws, &mut writing.list),
        5 => {
            let place = draws.below(writing.list.len().max(1));
            let value = draw_value(draws);
            if let Some(entry) = writing.list.get_mut(place) {
                *entry = value;
            }
        }
        6 => writing.room = draws.below(writing.room + 1),
        _ => writing.room = writing.room.saturating_sub(1 + draws.below(MORE_ROOM)),
    }
}

/// One of those that commands have, so that the second may be wrong for the first; or any byte.
fn draw_letter(draws: &mut Draws) -> u8 {
    match draws.below(3) {
        0 => draws.byte(),
        _ => draws.one_of(b"KLMNRIADFGHOPQSTUVX"),
    }
}

fn draw_value(draws: &mut Draws) -> i32 {
    match draws.below(4) {
        0 => draws.any_integer(),
        1 => draw_integer(draws),
        _ => draws.one_of(&ODD_VALUES),
    }
}

fn lengthen(draws: &mut Draws, list: &mut Vec<i32>) {
    let length = draws.one_of(&[255, 256, 257, 258, 300]);
    list.resize(length, 33);
}
