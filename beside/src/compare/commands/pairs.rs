//! How the DELs of a written command were sent, and what a KI did, for the table.

use second::commands::{Command, Value};
use second::parameters::{DEL, ESC};
use second::remembered::DelMode;

use crate::compare::names::*;
use crate::compare::streams::by_ki;

/// Of a command that was written in a mode with these bytes.
pub fn met(command: &Command, mode: DelMode, spelling: &[u8]) -> Vec<Name> {
    let parameters = &spelling[3..];
    let mut met = by_ki(command);
    match (mode, spelling.len()) {
        (DelMode::Data, 776) => met.push(LONGEST),
        (DelMode::Filler, 1033) => met.push(LONGEST_WITH_PAIRS),
        _ => {}
    }
    if mode == DelMode::Data {
        met.extend(parameters.contains(&DEL).then_some(AS_ITSELF));
        return met;
    }
    let is_paired = parameters.contains(&ESC);
    met.extend((is_paired && command.letters == *b"KI").then_some(PAIR_IN_KI));
    for value in &command.values {
        met.extend(is_paired.then(|| paired(value)).flatten());
    }
    met.sort();
    met.dedup();
    met
}

/// Which sort of parameter holds a 127, if this one does. Of points all is known that there is a pair in the command.
fn paired(value: &Value) -> Option<Name> {
    let (name, is_paired) = match value {
        Value::Integer(integer) => (PAIR_IN_INTEGER, has_del(integer)),
        Value::Real { mantissa, exponent } => {
            (PAIR_IN_INTEGER, has_del(mantissa) || has_del(exponent))
        }
        Value::Point(_) => (PAIR_IN_POINT, true),
        Value::String(characters) => (PAIR_IN_STRING, characters.contains(&DEL)),
        Value::Array(integers) => (PAIR_IN_ARRAY, integers.iter().any(has_del)),
        Value::Character(character) => (PAIR_IN_CHARACTERS, *character == DEL),
    };
    is_paired.then_some(name)
}

/// The second high byte is the only one that can be 127.
fn has_del(integer: &i32) -> bool {
    integer.unsigned_abs() / 16 % 64 == 63
}

#[cfg(test)]
mod tests {
    use super::*;
    use second::commands::spell_command;
    use second::points::Point;
    use second::remembered::Remembered;

    fn met_in(mode: DelMode, letters: &[u8; 2], values: Vec<Value>) -> Vec<Name> {
        let letters = *letters;
        let command = Command { letters, values };
        let spelling = spell_command(&command, Remembered::fresh_in(mode)).unwrap();
        met(&command, mode, &spelling)
    }

    #[test]
    fn a_del_is_sent_as_itself_or_as_a_pair() {
        let string = |characters: &[u8]| Value::String(characters.to_vec());
        for (letters, values, name) in [
            (b"KA", vec![Value::Integer(1023)], PAIR_IN_INTEGER),
            (
                b"LF",
                vec![Value::Point(Point { x: 0, y: 124 })],
                PAIR_IN_POINT,
            ),
            (
                b"RP",
                vec![Value::Integer(1), string(&[127])],
                PAIR_IN_STRING,
            ),
            (
                b"RP",
                vec![Value::Integer(1023), string(&[])],
                PAIR_IN_INTEGER,
            ),
            (b"RL", vec![Value::Array(vec![0, -1008])], PAIR_IN_ARRAY),
            (
                b"IQ",
                vec![Value::Character(127), Value::Character(127)],
                PAIR_IN_CHARACTERS,
            ),
        ] {
            assert_eq!(met_in(DelMode::Data, letters, values.clone()), [AS_ITSELF]);
            assert_eq!(met_in(DelMode::Filler, letters, values), [name]);
        }
        assert!(met_in(DelMode::Filler, b"KA", vec![Value::Integer(1024)]).is_empty());
    }

    #[test]
    fn the_longest_are_known() {
        let longest = vec![Value::Integer(32767), Value::Array(vec![32767; 256])];
        let padded = met_in(DelMode::Filler, b"KD", longest.clone());
        assert_eq!(padded, [LONGEST_WITH_PAIRS, PAIR_IN_ARRAY, PAIR_IN_INTEGER]);
        let plain = met_in(DelMode::Data, b"KD", longest);
        assert_eq!(plain, [LONGEST, AS_ITSELF]);
    }
}
