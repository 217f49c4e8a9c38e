//! The bodies of the macros that are expanded.

use second::commands::{Command, Value};
use second::forms::Letters;
use second::parameters::ESC;
use second::remembered::{DelMode, Remembered};

use crate::compare::draws::Draws;
use crate::compare::streams::{draw_fillers, draw_ki, spell_somehow};
use crate::compare::values::draw_command;

/// By index. The last two are never defined.
pub const NUMBERS: [i32; 16] = [
    0, 1, 2, 15, 16, 300, 1008, 1023, 1024, 2047, 16384, 32752, 32767, 3, 7, 20,
];
pub const DEFINED: usize = 14;

/// How many macros a call of the indices 1 to 5 of a tree enters: each calls the next four times.
const ENTERED: [usize; 5] = [341, 85, 21, 5, 1];

pub fn call(draws: &mut Draws, index: usize, mode: DelMode) -> Vec<u8> {
    call_of_number(draws, NUMBERS[index], mode)
}

pub fn call_of_number(draws: &mut Draws, number: i32, mode: DelMode) -> Vec<u8> {
    one_integer(draws, *b"KX", number, mode)
}

fn one_integer(draws: &mut Draws, letters: Letters, number: i32, mode: DelMode) -> Vec<u8> {
    let values = vec![Value::Integer(number)];
    let command = Command { letters, values };
    spell_somehow(draws, &command, Remembered::fresh_in(mode))
}

pub fn draw_text(draws: &mut Draws, mode: DelMode) -> Vec<u8> {
    let length = draws.below(4);
    let text = (0..length).map(|_| draws.below(128) as u8);
    let mut text: Vec<u8> = text.filter(|&byte| byte != ESC).collect();
    if mode == DelMode::Filler && draws.one_in(3) {
        text.extend(draw_fillers(draws));
    }
    text
}

/// Text, commands and calls, made for a mode. Calls go to higher indices, or anywhere. A KI holds from there on, and before the end the mode is
/// mostly put back, since other bodies are made for it too.
pub fn draw_body(draws: &mut Draws, index: usize, is_anywhere: bool, mode: DelMode) -> Vec<u8> {
    let mut body = Vec::new();
    let mut here = mode;
    for _ in 0..1 + draws.below(5) {
        body.extend(match draws.below(4) {
            0 => draw_text(draws, here),
            1 => draw_other_command(draws, &mut here),
            _ => {
                let upwards = (index + 1 + draws.below(4)).min(NUMBERS.len() - 1);
                let anywhere = draws.below(NUMBERS.len());
                call(draws, if is_anywhere { anywhere } else { upwards }, here)
            }
        });
    }
    if here != mode && !draws.one_in(4) {
        let number = i32::from(mode == DelMode::Filler);
        body.extend(one_integer(draws, *b"KI", number, here));
    }
    if draws.one_in(12) {
        spoil_body(draws, &mut body, here);
    }
    body
}

/// Any but KX, with a liking for KI.
fn draw_other_command(draws: &mut Draws, mode: &mut DelMode) -> Vec<u8> {
    let before = Remembered::fresh_in(*mode);
    let command = match draws.below(5) {
        0 => draw_ki(draws),
        _ => draw_command(draws, before.point),
    };
    if command.letters == *b"KX" {
        return draw_text(draws, *mode);
    }
    *mode = before.behind(&command).mode;
    spell_somehow(draws, &command, before)
}

fn spoil_body(draws: &mut Draws, body: &mut Vec<u8>, mode: DelMode) {
    let place = draws.below(body.len().max(1));
    match draws.below(6) {
        0 => body.truncate(place),
        1 if place < body.len() => body[place] = draws.below(128) as u8,
        2 => body.push(ESC),
        3 => body.extend([ESC, b'K', b'Z']),
        _ => {
            let number = draws.one_of(&[-1, -32768]);
            body.extend(call_of_number(draws, number, mode));
        }
    }
}

/// Calls of a tree's indices that enter so many macros together.
pub fn calls_that_enter(draws: &mut Draws, macros: usize, mode: DelMode) -> Vec<u8> {
    let mut calls = Vec::new();
    let mut left = macros;
    for (place, entered) in ENTERED.iter().enumerate() {
        calls.extend(call(draws, place + 1, mode).repeat(left / entered));
        left %= entered;
    }
    calls
}
