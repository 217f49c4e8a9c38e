//! The streams that are read: valid, damaged, random. One in three is padded: it begins in mode 1, or in mode 0 with KI to come, and has DELs
//! everywhere.

use second::commands::{Command, Value};
use second::forms::FORMS;
use second::parameters::{DEL, ESC};
use second::remembered::{DelMode, Remembered};

use super::spelling::{draw_fillers, spell_integer_somehow, spell_somehow, with_fillers};
use super::whole::Stream;
use crate::compare::draws::Draws;
use crate::compare::remembered::draw_mode;
use crate::compare::values::{draw_command, draw_integer};

const MOST_PIECES: usize = 10;
const LONGEST_NOISE: usize = 60;

/// Letters that begin or complete commands, the ends of each range of bytes, and the pair's two.
const TELLING: [u8; 40] = [
    27, 27, 27, 63, 127, 75, 76, 78, 82, 77, 73, 65, 68, 70, 71, 72, 76, 79, 80, 82, 83, 84, 85,
    86, 88, 81, 31, 32, 33, 47, 48, 49, 64, 80, 95, 96, 97, 128, 0, 255,
];

const WRONG_COUNTS: [i32; 6] = [-1, 257, 258, 1000, 32767, -32768];

/// Those that set the mode, and others.
const KI_NUMBERS: [i32; 10] = [0, 0, 1, 1, 1, 2, -1, 16, 1008, 1009];

pub fn valid_stream(draws: &mut Draws) -> Stream {
    valid_pieces(draws, MOST_PIECES)
}

pub fn damaged_stream(draws: &mut Draws) -> Stream {
    damaged_pieces(draws, MOST_PIECES)
}

pub fn random_stream(draws: &mut Draws) -> Stream {
    let (made_for, mode) = match draw_mode(draws) {
        DelMode::Data => (DelMode::Data, DelMode::Data),
        DelMode::Filler => (DelMode::Filler, draw_first_mode(draws)),
    };
    let bytes = random_bytes(draws, made_for);
    Stream { mode, bytes }
}

/// A short one of any sort.
pub fn any_stream(draws: &mut Draws) -> Stream {
    match draws.below(4) {
        0 => valid_pieces(draws, 2),
        1..=2 => damaged_pieces(draws, 2),
        _ => random_stream(draws),
    }
}

/// Of a padded stream.
fn draw_first_mode(draws: &mut Draws) -> DelMode {
    match draws.below(5) {
        0 => DelMode::Data,
        _ => DelMode::Filler,
    }
}

fn valid_pieces(draws: &mut Draws, most: usize) -> Stream {
    let is_padded = draw_mode(draws) == DelMode::Filler;
    let mode = match is_padded {
        true => draw_first_mode(draws),
        false => DelMode::Data,
    };
    let mut remembered = Remembered::fresh_in(mode);
    let mut bytes = Vec::new();
    for _ in 0..1 + draws.below(most) {
        bytes.extend(draw_text(draws, remembered.mode));
        let command = match is_padded && draws.one_in(4) {
            true => draw_ki(draws),
            false => draw_command(draws, remembered.point),
        };
        bytes.extend(spell_somehow(draws, &command, remembered));
        remembered = remembered.behind(&command);
    }
    if remembered.mode == DelMode::Filler && draws.one_in(4) {
        bytes.extend(draw_fillers(draws));
    }
    Stream { mode, bytes }
}

pub fn draw_ki(draws: &mut Draws) -> Command {
    Command {
        letters: *b"KI",
        values: vec![Value::Integer(draws.one_of(&KI_NUMBERS))],
    }
}

fn draw_text(draws: &mut Draws, mode: DelMode) -> Vec<u8> {
    let length = draws.below(3);
    let text = (0..length).map(|_| draws.byte());
    let mut text: Vec<u8> = text.filter(|&byte| byte != ESC).collect();
    if mode == DelMode::Filler && draws.one_in(3) {
        let place = draws.below(text.len() + 1);
        text.splice(place..place, draw_fillers(draws));
    }
    text
}

fn damaged_pieces(draws: &mut Draws, most: usize) -> Stream {
    let mut stream = valid_pieces(draws, most);
    for _ in 0..1 + draws.below(3) {
        damage(draws, &mut stream);
    }
    stream
}

fn damage(draws: &mut Draws, stream: &mut Stream) {
    let Stream { mode, bytes } = stream;
    let place = draws.below(bytes.len() + 1);
    match draws.below(9) {
        0..=2 if place < bytes.len() => bytes[place] = draw_telling(draws),
        3 if place < bytes.len() => {
            bytes.remove(place);
        }
        4 => bytes.insert(place, draw_telling(draws)),
        5 => bytes.truncate(place),
        6 => bytes.extend(wrong_command(draws, *mode)),
        7 => {
            let wrong = wrong_command(draws, *mode);
            bytes.splice(place..place, wrong);
        }
        _ => {
            bytes.splice(place..place, draw_fillers(draws));
        }
    }
}

/// A command of any letters whose first integer is a wrong count, is out of range, or has a third high byte.
fn wrong_command(draws: &mut Draws, mode: DelMode) -> Vec<u8> {
    let mut command = vec![ESC];
    command.extend(FORMS[draws.below(FORMS.len())].letters);
    if draws.one_in(3) {
        let integer = draw_integer(draws);
        command.extend(spell_integer_somehow(draws, integer));
    }
    match draws.below(3) {
        0 => {
            let count = draws.one_of(&WRONG_COUNTS);
            command.extend(spell_integer_somehow(draws, count));
        }
        1 => command.extend([96, 64, draws.one_of(&[32, 33, 48, 49])]),
        _ => command.extend([64, draws.between(64, 127) as u8, 64, 48]),
    }
    with_fillers(draws, command, mode)
}

fn draw_telling(draws: &mut Draws) -> u8 {
    match draws.below(3) {
        0 => draws.byte(),
        _ => draws.one_of(&TELLING),
    }
}

fn random_bytes(draws: &mut Draws, mode: DelMode) -> Vec<u8> {
    let length = draws.below(LONGEST_NOISE);
    let mut stream = Vec::new();
    for _ in 0..length {
        let piece = match draws.below(8) {
            // Whole letters, so that noise reaches the parameters.
            0 => {
                let [first, second] = FORMS[draws.below(FORMS.len())].letters;
                vec![ESC, first, second]
            }
            1..=3 => vec![draws.between(32, 127) as u8],
            4 => vec![draws.byte()],
            5 if mode == DelMode::Filler && draws.one_in(3) => vec![ESC, 63],
            _ => vec![draws.one_of(&TELLING)],
        };
        stream.extend(with_fillers(draws, piece, mode));
        if mode == DelMode::Filler && draws.one_in(6) {
            stream.push(DEL);
        }
    }
    stream
}
