//! A made stream: eight times some text and a command. DELs strewn into bytes.

use crate::commands::{spell_command, Command, Value};
use crate::draws::Draws;
use crate::forms::{Parameter, FORMS};
use crate::parameters::{DEL, ESC};
use crate::points::Point;
use crate::remembered::{DelMode, Remembered};

const PIECES: usize = 8;

/// From what is remembered when fresh; a KI may change the mode on the way.
pub fn made_stream(draws: &mut Draws) -> Vec<u8> {
    pieces(draws, DelMode::Data, draw_command)
}

/// All of it in one mode: where a KI is drawn that would set it, KI 2 stands.
pub fn made_in(draws: &mut Draws, mode: DelMode) -> Vec<u8> {
    pieces(draws, mode, |draws, point| {
        let command = draw_command(draws, point);
        match command.mode_set() {
            None => command,
            Some(_) => Command {
                values: vec![Value::Integer(2)],
                ..command
            },
        }
    })
}

fn pieces(
    draws: &mut Draws,
    mode: DelMode,
    draw_command: fn(&mut Draws, Point) -> Command,
) -> Vec<u8> {
    let mut stream = Vec::new();
    let mut remembered = Remembered::fresh_in(mode);
    for _ in 0..PIECES {
        stream.extend(draw_text(draws));
        let command = draw_command(draws, remembered.point);
        let spelling =
            spell_command(&command, remembered).expect("only what can be written is drawn");
        stream.extend(spelling);
        remembered = remembered.behind(&command);
    }
    stream
}

/// One to three DELs behind one byte in four.
pub fn strewn(draws: &mut Draws, bytes: &[u8]) -> Vec<u8> {
    let mut strewn = Vec::new();
    for &byte in bytes {
        strewn.push(byte);
        if draws.draw_from(4) == 0 {
            let dels = 1 + draws.draw_below(3);
            strewn.extend([DEL; 3].iter().take(dels));
        }
    }
    strewn
}

/// "Where 27 is drawn the byte is 26."
fn draw_text(draws: &mut Draws) -> Vec<u8> {
    let length = draws.draw_from(4);
    (0..length)
        .map(|_| match draws.draw_byte() {
            ESC => 26,
            byte => byte,
        })
        .collect()
}

/// The remembered point is that before the command for all its parameters, so for the second point of RS as well:
/// only when the command is written it becomes another.
pub fn draw_command(draws: &mut Draws, remembered: Point) -> Command {
    let form = &FORMS[draws.draw_below(FORMS.len())];
    Command {
        letters: form.letters,
        values: form
            .parameters
            .iter()
            .map(|&parameter| draw_value(parameter, draws, remembered))
            .collect(),
    }
}

fn draw_value(parameter: Parameter, draws: &mut Draws, remembered: Point) -> Value {
    match parameter {
        Parameter::Integer => Value::Integer(draw_integer(draws)),
        Parameter::Point => Value::Point(draw_point(draws, remembered)),
        Parameter::Real => {
            let mantissa = draw_integer(draws);
            let exponent = draw_integer(draws);
            Value::Real { mantissa, exponent }
        }
        Parameter::String => Value::String(draw_list(draws, draw_character)),
        Parameter::Array => Value::Array(draw_list(draws, draw_integer)),
        Parameter::Character => Value::Character(draw_character(draws)),
    }
}

fn draw_integer(draws: &mut Draws) -> i32 {
    let k = draws.draw_from(4);
    let m = match k {
        0 => draws.draw_from(16),
        1 => draws.draw_from(1024),
        _ => draws.draw_from(32768),
    } as i32;
    if k == 3 {
        return -(m + 1);
    }
    match draws.draw_from(2) {
        1 => -m,
        _ => m,
    }
}

/// Both coordinates are drawn, be they used or not.
fn draw_point(draws: &mut Draws, remembered: Point) -> Point {
    let k = draws.draw_from(4);
    let x = draws.draw_from(4096);
    let y = draws.draw_from(4096);
    match k {
        0 => Point { x, y },
        1 => Point { x: remembered.x, y },
        2 => Point { x, y: remembered.y },
        _ => remembered,
    }
}

fn draw_character(draws: &mut Draws) -> u8 {
    32 + draws.draw_from(96) as u8
}

fn draw_list<T>(draws: &mut Draws, draw_entry: fn(&mut Draws) -> T) -> Vec<T> {
    let count = draws.draw_from(8);
    (0..count).map(|_| draw_entry(draws)).collect()
}

#[cfg(test)]
mod tests {
    use super::*;
    use crate::items::{items_from, items_of, Item};

    #[test]
    fn the_first_pieces_by_hand() {
        // From 1 are drawn 16838 5758 10113 17515 31051 5627, then 23010 7419 16212 4086 2749 12767 9084 12060 32225 17543.
        let mut expected: Vec<u8> = Vec::new();
        // 16838 gives two bytes, 5758 and 10113 are they; 17515 gives KH, 31051 k = 3, 5627 the integer -5628.
        expected.extend([126, 129]);
        expected.extend([27, 75, 72, 69, 95, 44]);
        // Again two bytes; 4086 gives RS. 2749 gives k = 1 and so (0,892), 12060 k = 0 and (3553,1159).
        expected.extend([251, 84]);
        expected.extend([27, 82, 83, 38, 127, 64, 41, 109, 97, 59, 88]);
        let stream = made_stream(&mut Draws::starting_with(1));
        assert_eq!(stream[..expected.len()], expected);
    }

    /// Of all items.
    fn commands_and_refused(items: &[Item]) -> (usize, usize) {
        let commands = items
            .iter()
            .filter(|item| matches!(item, Item::Command { .. }));
        let refused = items
            .iter()
            .filter(|item| matches!(item, Item::RefusedCommand { .. }));
        (commands.count(), refused.count())
    }

    #[test]
    fn a_made_stream_holds_eight_commands_and_nothing_refused() {
        for x in 1..=1000 {
            let items = items_of(&made_stream(&mut Draws::starting_with(x)));
            assert_eq!(commands_and_refused(&items), (8, 0));
        }
    }

    #[test]
    fn a_stream_made_in_a_mode_stays_in_it() {
        let mut draws = Draws::starting_with(1);
        for _ in 0..1000 {
            let plain = made_in(&mut draws, DelMode::Data);
            let padded = made_in(&mut draws, DelMode::Filler);
            let padded = strewn(&mut draws, &padded);
            for (stream, mode) in [(plain, DelMode::Data), (padded, DelMode::Filler)] {
                let reads = items_from(&stream, Remembered::fresh_in(mode));
                let reads: Vec<_> = reads.collect();
                assert!(reads.iter().all(|read| read.remembered.mode == mode));
                let items: Vec<Item> = reads.into_iter().map(|read| read.item).collect();
                assert_eq!(commands_and_refused(&items), (8, 0));
            }
        }
    }

    #[test]
    fn drawn_text_never_holds_27() {
        let mut draws = Draws::starting_with(1);
        let text: Vec<u8> = (0..10_000).flat_map(|_| draw_text(&mut draws)).collect();
        assert!(!text.contains(&27));
        // 26 stands for two of the numbers drawn, so it comes about twice as often as another byte.
        let count = |byte| text.iter().filter(|&&other| other == byte).count();
        assert!(count(26) > count(25).max(count(28)));
    }

    #[test]
    fn drawn_integers_reach_both_ends() {
        let mut draws = Draws::starting_with(1);
        let integers: Vec<i32> = (0..200_000).map(|_| draw_integer(&mut draws)).collect();
        assert!(integers
            .iter()
            .all(|integer| (-32768..=32767).contains(integer)));
        assert!(integers.iter().any(|&integer| integer < -32700));
        assert!(integers.iter().any(|&integer| integer > 32700));
    }

    #[test]
    fn a_drawn_point_keeps_what_k_says() {
        let remembered = Point { x: 5000, y: 6000 };
        let mut seen = [false; 4];
        let mut draws = Draws::starting_with(1);
        for _ in 0..100 {
            let point = draw_point(&mut draws, remembered);
            let kept = (point.x == 5000, point.y == 6000);
            seen[usize::from(kept.0) + 2 * usize::from(kept.1)] = true;
        }
        assert_eq!(seen, [true; 4]);
    }
}
