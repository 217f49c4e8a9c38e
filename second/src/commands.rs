//! Whole commands: ESC, two letters and the parameters that the letters call for.

use std::ops::RangeInclusive;

use crate::answers::{Found, Reading, Refusal, Spelling};
use crate::forms::{begins_a_command, form_of, Form, Letters, Parameter};
use crate::integers::{read_count, read_integer, spell_count, spell_integer};
use crate::parameters::{next_byte, past_fillers, sent, ESC};
use crate::points::{read_point, spell_point, Point};
use crate::remembered::{DelMode, Remembered};

const CHARACTERS: RangeInclusive<u8> = 32..=127;

#[derive(Clone, Debug, PartialEq, Eq)]
pub struct Command {
    pub letters: Letters,
    pub values: Vec<Value>,
}

/// One parameter. A real's "pair is kept as it came".
#[derive(Clone, Debug, PartialEq, Eq)]
pub enum Value {
    Integer(i32),
    Point(Point),
    Real { mantissa: i32, exponent: i32 },
    String(Vec<u8>),
    Array(Vec<i32>),
    Character(u8),
}

impl Command {
    /// The point to be remembered behind the command, if it has one.
    pub fn last_point(&self) -> Option<Point> {
        self.values.iter().rev().find_map(Value::point)
    }

    /// The DEL mode that the command sets. "KI 0 returns to the old reading; other numbers leave the mode."
    pub fn mode_set(&self) -> Option<DelMode> {
        match (&self.letters, self.values.as_slice()) {
            (b"KI", [Value::Integer(0)]) => Some(DelMode::Data),
            (b"KI", [Value::Integer(1)]) => Some(DelMode::Filler),
            _ => None,
        }
    }
}

impl Value {
    fn parameter(&self) -> Parameter {
        match self {
            Value::Integer(_) => Parameter::Integer,
            Value::Point(_) => Parameter::Point,
            Value::Real { .. } => Parameter::Real,
            Value::String(_) => Parameter::String,
            Value::Array(_) => Parameter::Array,
            Value::Character(_) => Parameter::Character,
        }
    }

    fn point(&self) -> Option<Point> {
        match self {
            Value::Point(point) => Some(*point),
            _ => None,
        }
    }
}

/// Reads the command whose ESC stands at a place.
pub fn read_command(bytes: &[u8], escape: usize, remembered: Remembered) -> Reading<Command> {
    let letters = read_letters(bytes, escape, remembered.mode)?;
    let values = read_values(letters.value.parameters, bytes, letters.next, remembered)?;
    Ok(values.map(|values| Command {
        letters: letters.value.letters,
        values,
    }))
}

/// The letters behind an ESC: "a first letter that begins no command, or a second that completes none, is refusal 2 there".
pub fn read_letters(bytes: &[u8], escape: usize, mode: DelMode) -> Reading<&'static Form> {
    let first = read_letter(bytes, escape + 1, mode)?;
    // Before the second is looked at, as "the earliest byte decides".
    if !begins_a_command(first.value) {
        return Err(Refusal::UnknownCommand.at(first.last));
    }
    let second = read_letter(bytes, first.next, mode)?;
    let form = form_of([first.value, second.value]);
    let form = form.ok_or(Refusal::UnknownCommand.at(second.last))?;
    Ok(second.map(|_| form))
}

/// "An op letter of 27 is refusal 6 there", before 63 too: pairs are for parameters.
fn read_letter(bytes: &[u8], start: usize, mode: DelMode) -> Reading<u8> {
    let place = past_fillers(bytes, start, mode);
    match bytes.get(place) {
        None => Err(Refusal::BytesEnd.at(bytes.len())),
        Some(&ESC) => Err(Refusal::NewEscape.at(place)),
        Some(&letter) => Ok(Found {
            value: letter,
            last: place,
            next: place + 1,
        }),
    }
}

fn read_values(
    parameters: &[Parameter],
    bytes: &[u8],
    start: usize,
    remembered: Remembered,
) -> Reading<Vec<Value>> {
    let mut going = remembered;
    let mut values = nothing_yet(start);
    for &parameter in parameters {
        let found = read_value(parameter, bytes, values.next, going)?;
        // The second point of RS is spelled against its first.
        going.point = found.value.point().unwrap_or(going.point);
        append(&mut values, found);
    }
    Ok(values)
}

fn read_value(
    parameter: Parameter,
    bytes: &[u8],
    start: usize,
    remembered: Remembered,
) -> Reading<Value> {
    let mode = remembered.mode;
    match parameter {
        Parameter::Integer => Ok(read_integer(bytes, start, mode)?.map(Value::Integer)),
        Parameter::Point => Ok(read_point(bytes, start, remembered)?.map(Value::Point)),
        Parameter::Real => read_real(bytes, start, mode),
        Parameter::String => Ok(read_list(bytes, start, mode, read_character)?.map(Value::String)),
        Parameter::Array => Ok(read_list(bytes, start, mode, read_integer)?.map(Value::Array)),
        Parameter::Character => Ok(read_character(bytes, start, mode)?.map(Value::Character)),
    }
}

/// "Two integers, mantissa and exponent."
fn read_real(bytes: &[u8], start: usize, mode: DelMode) -> Reading<Value> {
    let mantissa = read_integer(bytes, start, mode)?;
    let exponent = read_integer(bytes, mantissa.next, mode)?;
    Ok(exponent.map(|exponent| Value::Real {
        mantissa: mantissa.value,
        exponent,
    }))
}

/// A byte of a parameter is 32 to 127 by itself, and a character may be any of these.
fn read_character(bytes: &[u8], start: usize, mode: DelMode) -> Reading<u8> {
    let byte = next_byte(bytes, start, mode)?;
    Ok(Found {
        value: byte.value,
        last: byte.place,
        next: byte.next,
    })
}

/// A count and that many entries.
fn read_list<T>(
    bytes: &[u8],
    start: usize,
    mode: DelMode,
    read_entry: fn(&[u8], usize, DelMode) -> Reading<T>,
) -> Reading<Vec<T>> {
    let count = read_count(bytes, start, mode)?;
    let mut list = nothing_yet(count.next);
    for _ in 0..count.value {
        let entry = read_entry(bytes, list.next, mode)?;
        append(&mut list, entry);
    }
    Ok(list)
}

/// No value so far, behind the byte before a place.
fn nothing_yet<T>(place: usize) -> Found<Vec<T>> {
    Found {
        value: Vec::new(),
        last: place - 1,
        next: place,
    }
}

fn append<T>(values: &mut Found<Vec<T>>, found: Found<T>) {
    values.value.push(found.value);
    values.last = found.last;
    values.next = found.next;
}

/// The shortest spelling, from its ESC on.
/// 8 is "for letters or a kind of parameters not in the table, a value or remembered point outside its range, or more
/// than 256 entries".
pub fn spell_command(command: &Command, remembered: Remembered) -> Spelling {
    let form = form_of(command.letters).ok_or(Refusal::NotValid)?;
    let parameters: Vec<Parameter> = command.values.iter().map(Value::parameter).collect();
    if parameters != form.parameters || !remembered.in_range() {
        return Err(Refusal::NotValid);
    }
    let mut last_point = remembered.point;
    let mut spelling = vec![ESC];
    spelling.extend(command.letters);
    for value in &command.values {
        spelling.extend(sent(&spell_value(value, last_point)?, remembered.mode));
        last_point = value.point().unwrap_or(last_point);
    }
    Ok(spelling)
}

fn spell_value(value: &Value, last_point: Point) -> Spelling {
    match value {
        Value::Integer(value) => spell_integer(*value),
        Value::Point(point) => spell_point(*point, last_point),
        Value::Real { mantissa, exponent } => {
            Ok([spell_integer(*mantissa)?, spell_integer(*exponent)?].concat())
        }
        Value::String(characters) => spell_list(characters, spell_character),
        Value::Array(entries) => spell_list(entries, spell_integer),
        Value::Character(character) => spell_character(*character),
    }
}

/// A byte that stands for itself; how a 127 is sent is another matter.
fn spell_character(character: u8) -> Spelling {
    if CHARACTERS.contains(&character) {
        Ok(vec![character])
    } else {
        Err(Refusal::NotValid)
    }
}

fn spell_list<T: Copy>(list: &[T], spell_entry: fn(T) -> Spelling) -> Spelling {
    let count = u32::try_from(list.len()).map_err(|_| Refusal::NotValid)?;
    let mut spelling = spell_count(count)?;
    for &entry in list {
        spelling.extend(spell_entry(entry)?);
    }
    Ok(spelling)
}

#[cfg(test)]
mod tests {
    use super::*;
    use crate::draws::Draws;
    use crate::made::draw_command;
    use crate::parameters::DEL;

    fn command(letters: &Letters, values: Vec<Value>) -> Command {
        Command {
            letters: *letters,
            values,
        }
    }

    fn point(x: u32, y: u32) -> Value {
        Value::Point(Point { x, y })
    }

    /// Remembered in mode 0.
    fn from(x: u32, y: u32) -> Remembered {
        Remembered {
            point: Point { x, y },
            ..Remembered::FRESH
        }
    }

    /// Puts ESC and the letters before the bytes of the parameters.
    fn with_letters(letters: &Letters, parameters: &[u8]) -> Vec<u8> {
        [&[ESC], letters.as_slice(), parameters].concat()
    }

    fn read_whole(bytes: &[u8], remembered: Remembered) -> Command {
        let found = read_command(bytes, 0, remembered).unwrap();
        assert_eq!((found.last, found.next), (bytes.len() - 1, bytes.len()));
        found.value
    }

    fn refusal(bytes: &[u8]) -> (u32, usize) {
        let refused = read_command(bytes, 0, Remembered::FRESH).unwrap_err();
        (refused.refusal.number(), refused.place)
    }

    /// Numbers and places for bytes behind the letters of a command, which stand at 0 to 2.
    fn refusal_behind(letters: &Letters, parameters: &[u8]) -> (u32, usize) {
        refusal(&with_letters(letters, parameters))
    }

    /// One command at least for each row of document 01's table, with its shortest parameters from (0,0).
    fn worked() -> Vec<(Command, &'static [u8])> {
        vec![
            (command(b"KA", vec![Value::Integer(1200)]), &[65, 75, 48]),
            (command(b"NL", vec![Value::Integer(-32768)]), &[96, 64, 32]),
            (
                command(b"NR", vec![Value::Integer(15), Value::Integer(-16)]),
                &[63, 65, 32],
            ),
            (
                command(
                    b"RU",
                    vec![Value::Integer(0), Value::Integer(-1), Value::Integer(3)],
                ),
                &[48, 33, 51],
            ),
            (command(b"LF", vec![point(0, 100)]), &[121, 64]),
            (
                command(b"RS", vec![point(128, 0), point(129, 0)]),
                &[96, 33, 64, 97, 96, 64],
            ),
            (
                command(
                    b"MR",
                    vec![Value::Real {
                        mantissa: 1200,
                        exponent: -16,
                    }],
                ),
                &[65, 75, 48, 65, 32],
            ),
            (
                command(b"LT", vec![Value::String(vec![32, 72, DEL])]),
                &[51, 32, 72, DEL],
            ),
            (command(b"LT", vec![Value::String(vec![])]), &[48]),
            (
                command(b"RD", vec![Value::Array(vec![16, -1])]),
                &[50, 65, 48, 33],
            ),
            (command(b"RL", vec![Value::Array(vec![])]), &[48]),
            (
                command(
                    b"KD",
                    vec![Value::Integer(5), Value::Array(vec![72, 105, 0])],
                ),
                &[53, 51, 68, 56, 70, 57, 48],
            ),
            (
                command(b"RP", vec![Value::Integer(4), Value::String(vec![42, 60])]),
                &[52, 50, 42, 60],
            ),
            (
                command(b"IQ", vec![Value::Character(32), Value::Character(DEL)]),
                &[32, DEL],
            ),
        ]
    }

    #[test]
    fn worked_commands_are_spelled_and_read() {
        for (command, parameters) in worked() {
            let bytes = with_letters(&command.letters, parameters);
            assert_eq!(
                spell_command(&command, Remembered::FRESH).as_ref(),
                Ok(&bytes)
            );
            assert_eq!(read_whole(&bytes, Remembered::FRESH), command);
        }
    }

    #[test]
    fn a_command_is_read_at_its_place_and_bytes_behind_it_are_left() {
        let found = read_command(&[65, 27, 75, 65, 48, 27], 1, Remembered::FRESH).unwrap();
        assert_eq!(found.value, command(b"KA", vec![Value::Integer(0)]));
        assert_eq!((found.last, found.next), (4, 5));
    }

    #[test]
    fn an_empty_list_ends_with_its_count() {
        let found = read_command(b"\x1bLT0A", 0, Remembered::FRESH).unwrap();
        assert_eq!((found.last, found.next), (3, 4));
    }

    #[test]
    fn refusal_1_is_wherever_a_command_is_cut() {
        for (command, parameters) in worked() {
            let bytes = with_letters(&command.letters, parameters);
            for length in 1..bytes.len() {
                assert_eq!(refusal(&bytes[..length]), (1, length));
            }
        }
    }

    #[test]
    fn refusal_1_is_for_a_parameter_that_ends_with_27() {
        for (command, parameters) in worked() {
            let bytes = with_letters(&command.letters, parameters);
            for length in 3..bytes.len() {
                let cut = [&bytes[..length], &[ESC]].concat();
                assert_eq!(refusal(&cut), (1, length + 1));
            }
        }
    }

    #[test]
    fn refusal_2_is_at_the_letter_that_makes_no_command() {
        // The first decides by itself, be the bytes over behind it or not.
        assert_eq!(refusal(&[ESC, b'A']), (2, 1));
        assert_eq!(refusal(&[ESC, b'A', ESC]), (2, 1));
        assert_eq!(refusal(&[ESC, b'k', b'A', 48]), (2, 1));
        assert_eq!(refusal(&[ESC, 63, 48]), (2, 1));
        assert_eq!(refusal(&[ESC, 255]), (2, 1));
        assert_eq!(refusal(&[ESC, b'K', b'Z', 48]), (2, 2));
        assert_eq!(refusal(&[ESC, b'N', b'X', 48]), (2, 2));
        assert_eq!(refusal(&[ESC, b'K', 0]), (2, 2));
    }

    #[test]
    fn refusal_3_is_at_a_byte_that_the_parameter_does_not_allow() {
        for byte in [0, 31, 128, 255] {
            assert_eq!(refusal_behind(b"KA", &[byte]), (3, 3));
            assert_eq!(refusal_behind(b"KA", &[64, byte]), (3, 4));
            assert_eq!(refusal_behind(b"RU", &[48, 48, byte]), (3, 5));
            assert_eq!(refusal_behind(b"LF", &[byte]), (3, 3));
            assert_eq!(refusal_behind(b"MR", &[48, byte]), (3, 4));
            assert_eq!(refusal_behind(b"LT", &[byte]), (3, 3));
            assert_eq!(refusal_behind(b"LT", &[50, 65, byte]), (3, 5));
            assert_eq!(refusal_behind(b"RD", &[49, byte]), (3, 4));
            assert_eq!(refusal_behind(b"KO", &[48, 49, byte]), (3, 5));
            assert_eq!(refusal_behind(b"RP", &[48, 49, byte]), (3, 5));
            assert_eq!(refusal_behind(b"IQ", &[byte]), (3, 3));
            assert_eq!(refusal_behind(b"IQ", &[65, byte]), (3, 4));
        }
        // A second HiY, and one where the second point of RS must go on.
        assert_eq!(refusal_behind(b"LF", &[32, 32]), (3, 4));
        assert_eq!(refusal_behind(b"RS", &[64, 32, 32]), (3, 5));
        // Neither a third byte 96..127 nor the pair that stands for one, whose place is that of the 63.
        assert_eq!(refusal_behind(b"RS", &[64, 96, 96, 96]), (3, 6));
        assert_eq!(refusal_behind(b"RS", &[64, 96, 96, ESC, 63]), (3, 7));
    }

    #[test]
    fn refusal_4_is_at_the_third_high_byte_or_the_low_byte() {
        assert_eq!(refusal_behind(b"KA", &[64, 64, 64]), (4, 5));
        assert_eq!(refusal_behind(b"KA", &[96, 64, 48]), (4, 5));
        assert_eq!(refusal_behind(b"NR", &[48, 96, 64, 33]), (4, 6));
        assert_eq!(refusal_behind(b"MR", &[48, 64, 64, 64]), (4, 6));
        assert_eq!(refusal_behind(b"RD", &[49, 64, 64, 64]), (4, 6));
        // In a count 4 comes before 5.
        assert_eq!(refusal_behind(b"LT", &[96, 64, 48]), (4, 5));
        assert_eq!(refusal_behind(b"KD", &[48, 64, 64, 64]), (4, 6));
        // A pair as the third high byte has the place of its 63.
        assert_eq!(refusal_behind(b"KA", &[64, 64, ESC, 63]), (4, 6));
    }

    #[test]
    fn refusal_5_is_at_the_low_byte_of_a_count() {
        assert_eq!(refusal_behind(b"LT", &[33]), (5, 3));
        assert_eq!(refusal_behind(b"RL", &[80, 49]), (5, 4));
        assert_eq!(refusal_behind(b"KO", &[33, 33]), (5, 4));
        assert_eq!(refusal_behind(b"RP", &[33, 95, DEL, 63]), (5, 6));
        assert_eq!(refusal_behind(b"RP", &[33, 95, ESC, 63, 63]), (5, 7));
    }

    #[test]
    fn refusal_6_is_at_a_new_escape() {
        // Letters know no pairs.
        assert_eq!(refusal(&[ESC, ESC]), (6, 1));
        assert_eq!(refusal(&[ESC, ESC, 63]), (6, 1));
        assert_eq!(refusal(&[ESC, b'K', ESC]), (6, 2));
        assert_eq!(refusal(&[ESC, b'K', ESC, 63]), (6, 2));
        for (command, parameters) in worked() {
            let bytes = with_letters(&command.letters, parameters);
            for place in 3..bytes.len() {
                let mut damaged = bytes.clone();
                damaged.splice(place.., [ESC, b'K']);
                assert_eq!(refusal(&damaged), (6, place));
                damaged.splice(place.., [ESC, ESC, 63]);
                assert_eq!(refusal(&damaged), (6, place));
            }
        }
    }

    #[test]
    fn a_pair_is_127_in_each_kind_of_parameter() {
        let with_pairs: [(&Letters, &[u8], Vec<Value>); 10] = [
            (b"KA", &[ESC, 63, 48], vec![Value::Integer(1008)]),
            (
                b"NR",
                &[48, 95, ESC, 63, 63],
                vec![Value::Integer(0), Value::Integer(32767)],
            ),
            (b"LF", &[ESC, 63, ESC, 63, 64], vec![point(3, 127)]),
            (
                b"RS",
                &[64, ESC, 63, 33, 64],
                vec![point(0, 0), point(128, 124)],
            ),
            (
                b"MR",
                &[ESC, 63, 48, ESC, 63, 32],
                vec![Value::Real {
                    mantissa: 1008,
                    exponent: -1008,
                }],
            ),
            (
                b"LT",
                &[51, ESC, 63, 63, ESC, 63],
                vec![Value::String(vec![DEL, 63, DEL])],
            ),
            (
                b"RL",
                &[50, ESC, 63, 48, 48],
                vec![Value::Array(vec![1008, 0])],
            ),
            (
                b"KD",
                &[ESC, 63, 48, 49, ESC, 63, 32],
                vec![Value::Integer(1008), Value::Array(vec![-1008])],
            ),
            (
                b"RP",
                &[ESC, 63, 48, 49, ESC, 63],
                vec![Value::Integer(1008), Value::String(vec![DEL])],
            ),
            (
                b"IQ",
                &[ESC, 63, ESC, 63],
                vec![Value::Character(DEL), Value::Character(DEL)],
            ),
        ];
        for (letters, parameters, values) in with_pairs {
            let bytes = with_letters(letters, parameters);
            let read = read_whole(&bytes, Remembered::FRESH);
            assert_eq!(read, command(letters, values));
            // "The writer writes 127."
            let spelling = spell_command(&read, Remembered::FRESH).unwrap();
            assert!(!spelling[1..].contains(&ESC));
            assert_eq!(read_whole(&spelling, Remembered::FRESH), read);
        }
        // A pair as the high byte of a count, which is then too great.
        assert_eq!(refusal_behind(b"LT", &[ESC, 63, 48]), (5, 5));
    }

    #[test]
    fn the_second_point_of_rs_follows_from_the_first() {
        let remembered = from(4095, 3071);
        let first = point(1365, 2730);
        let second = point(1365, 2730);
        let bytes = with_letters(b"RS", &[53, 105, 106, 42, 85, 85]);
        let rs = command(b"RS", vec![first, second]);
        assert_eq!(spell_command(&rs, remembered).as_ref(), Ok(&bytes));
        assert_eq!(read_whole(&bytes, remembered), rs);

        // Without any part of its own but LoX the second has those of the first.
        let bytes = with_letters(b"RS", &[53, 105, 106, 42, 85, 64]);
        let rs = command(b"RS", vec![point(1365, 2730), point(1281, 2730)]);
        assert_eq!(read_whole(&bytes, remembered), rs);
        assert_eq!(rs.last_point(), Some(Point { x: 1281, y: 2730 }));
    }

    #[test]
    fn a_command_without_a_point_has_no_last_point() {
        let lt = command(b"LT", vec![Value::String(vec![65])]);
        assert_eq!(lt.last_point(), None);
    }

    #[test]
    fn a_command_is_spelled_from_the_remembered_point() {
        let lf = command(b"LF", vec![point(0, 100)]);
        let remembered = from(3, 103);
        assert_eq!(
            spell_command(&lf, remembered),
            Ok(with_letters(b"LF", &[96, 121, 64]))
        );
        let remembered = from(124, 100);
        assert_eq!(
            spell_command(&lf, remembered),
            Ok(with_letters(b"LF", &[64]))
        );
    }

    #[test]
    fn lists_go_up_to_256_entries() {
        let fit = [
            command(b"LT", vec![Value::String(vec![DEL; 256])]),
            command(b"RD", vec![Value::Array(vec![-32768; 256])]),
        ];
        for command in fit {
            let spelling = spell_command(&command, Remembered::FRESH).unwrap();
            assert_eq!(read_whole(&spelling, Remembered::FRESH), command);
        }
    }

    #[test]
    fn what_is_no_command_is_not_spelled() {
        let outside = Point { x: 4096, y: 0 };
        let wrong = [
            command(b"NX", vec![Value::Integer(0)]),
            command(b"KA", vec![]),
            command(b"KA", vec![Value::Character(65)]),
            command(b"KA", vec![Value::Integer(0), Value::Integer(0)]),
            command(b"KA", vec![Value::Integer(32768)]),
            command(b"LF", vec![Value::Point(outside)]),
            command(
                b"MR",
                vec![Value::Real {
                    mantissa: 0,
                    exponent: -32769,
                }],
            ),
            command(b"LT", vec![Value::String(vec![31])]),
            command(b"LT", vec![Value::String(vec![65; 257])]),
            command(b"RD", vec![Value::Array(vec![32768])]),
            command(b"RD", vec![Value::Array(vec![0; 257])]),
            command(b"IQ", vec![Value::Character(32), Value::Character(128)]),
        ];
        for command in wrong {
            assert_eq!(
                spell_command(&command, Remembered::FRESH),
                Err(Refusal::NotValid)
            );
        }
        // The remembered point counts for commands without points as well.
        let ka = command(b"KA", vec![Value::Integer(0)]);
        assert_eq!(spell_command(&ka, from(4096, 0)), Err(Refusal::NotValid));
    }

    /// Drawn commands, each with what is remembered before it: what the one before leaves, and now and then the other mode.
    fn drawn_commands(seed: u64, count: usize) -> impl Iterator<Item = (Command, Remembered)> {
        let mut draws = Draws::starting_with(seed);
        let mut remembered = Remembered::FRESH;
        (0..count).map(move |_| {
            remembered.mode = match draws.draw_from(16) {
                0 => DelMode::Filler,
                1 => DelMode::Data,
                _ => remembered.mode,
            };
            let command = draw_command(&mut draws, remembered.point);
            let before = remembered;
            remembered = before.behind(&command);
            (command, before)
        })
    }

    #[test]
    fn drawn_commands_go_there_and_back() {
        for (command, remembered) in drawn_commands(7, 20_000) {
            let spelling = spell_command(&command, remembered).unwrap();
            assert_eq!(read_whole(&spelling, remembered), command);
            let paired = sent(&spelling, DelMode::Filler);
            assert_eq!(read_whole(&paired, remembered), command);
        }
    }

    #[test]
    fn no_part_of_a_spelling_can_be_left_out() {
        for (command, remembered) in drawn_commands(11, 5_000) {
            let spelling = spell_command(&command, remembered).unwrap();
            for start in 3..spelling.len() {
                for end in start + 1..=spelling.len() {
                    let shorter = [&spelling[..start], &spelling[end..]].concat();
                    let read = read_command(&shorter, 0, remembered);
                    assert_ne!(read.ok().map(|found| found.value).as_ref(), Some(&command));
                }
            }
        }
    }
}
