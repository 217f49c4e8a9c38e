//! One command written by both sides.

use std::fmt;

use second::answers::{put, Refusal};
use second::commands::{spell_command, Command, Value};
use second::forms::{form_of, Parameter};
use second::points::Point;

use super::pairs::met;
use crate::archive;
use crate::compare::case::{in_decimal, labelled, same, untouched, Case, Difference};
use crate::compare::fence::{Fenced, Junk};
use crate::compare::names::Name;
use crate::compare::remembered::{met_outside, numbers_of, remembered_from};
use crate::compare::shrinking::{lesser, lower, lowered_array, with_each};
use crate::compare::tally::Row;

/// ESC, two letters and a parameter: nothing shorter is a command.
const SHORTEST: usize = 4;

#[derive(Clone)]
pub struct Writing {
    pub letters: [u8; 2],
    pub values: [i32; 4],
    pub list: Vec<i32>,
    pub remembered: [u16; 3],
    pub room: usize,
}

/// All that the writing of a command answers and leaves behind.
#[derive(PartialEq)]
struct Written {
    number: u8,
    written: usize,
    remembered: [u16; 3],
    out: Fenced<u8>,
}

/// The bytes, whatever the room, what is remembered then, and what was met on the way.
struct Spelled {
    bytes: Vec<u8>,
    remembered: [u16; 3],
    met: Vec<Name>,
}

impl Writing {
    fn by_archive(&self, list: &[i32]) -> Written {
        let mut said = Written {
            number: 0,
            written: usize::JUNK,
            remembered: self.remembered,
            out: Fenced::room(self.room),
        };
        said.number = archive::write_command(
            self.letters,
            &self.values,
            list,
            &mut said.remembered,
            said.out.lent(),
            &mut said.written,
        );
        said
    }

    /// The answer, and what was met on the way.
    fn by_second(&self) -> (Written, Vec<Name>) {
        let mut out = Fenced::room(self.room);
        let spelled = self.spelled().and_then(|spelled| {
            put(&spelled.bytes, out.lent(), 0)?;
            Ok(spelled)
        });
        match spelled {
            Ok(spelled) => {
                let written = Written {
                    number: 0,
                    written: spelled.bytes.len(),
                    remembered: spelled.remembered,
                    out,
                };
                (written, spelled.met)
            }
            Err(refusal) => {
                let written = Written {
                    number: refusal.number() as u8,
                    written: 0,
                    remembered: self.remembered,
                    out,
                };
                (written, met_outside(self.remembered))
            }
        }
    }

    fn spelled(&self) -> Result<Spelled, Refusal> {
        let before = remembered_from(self.remembered).ok_or(Refusal::NotValid)?;
        let command = self.command().ok_or(Refusal::NotValid)?;
        let bytes = spell_command(&command, before)?;
        Ok(Spelled {
            met: met(&command, before.mode, &bytes),
            remembered: numbers_of(before.behind(&command)),
            bytes,
        })
    }

    pub fn spelling(&self) -> Option<Vec<u8>> {
        self.spelled().ok().map(|spelled| spelled.bytes)
    }

    /// None for letters that are no command's, and for what cannot even be named: a coordinate below 0, a character that is no byte.
    fn command(&self) -> Option<Command> {
        let mut values = Vec::new();
        let mut numbers = self.values.iter().copied();
        for parameter in form_of(self.letters)?.parameters {
            let mut next = || numbers.next().expect("no command has more than four");
            values.push(match parameter {
                Parameter::Integer => Value::Integer(next()),
                Parameter::Point => Value::Point(Point {
                    x: u32::try_from(next()).ok()?,
                    y: u32::try_from(next()).ok()?,
                }),
                Parameter::Real => Value::Real {
                    mantissa: next(),
                    exponent: next(),
                },
                Parameter::Character => Value::Character(u8::try_from(next()).ok()?),
                Parameter::Array => Value::Array(self.list.clone()),
                Parameter::String => {
                    let characters = self.list.iter().map(|&entry| u8::try_from(entry).ok());
                    Value::String(characters.collect::<Option<Vec<u8>>>()?)
                }
            });
        }
        let letters = self.letters;
        Some(Command { letters, values })
    }
}

impl Case for Writing {
    fn run(&self, row: &mut Row) -> Result<(), Difference> {
        let list = self.list.clone();
        let (second, met) = self.by_second();
        same(
            || "ardh_write_command".to_string(),
            &self.by_archive(&list),
            &second,
        )?;
        let is_short = second.number > 0 && self.room < SHORTEST;
        row.refusal(second.number, if is_short { &[7] } else { &[] });
        row.meet_all(&met);
        untouched("the entries", &list, &self.list)
    }

    fn smaller(&self) -> Vec<Writing> {
        [
            with_each(self, lesser(&self.list), |case, list| case.list = list),
            with_each(self, lower(self.room), |case, room| case.room = room),
            with_each(self, lowered_array(self.values), |case, values| {
                case.values = values
            }),
            with_each(self, lowered_array(self.remembered), |case, remembered| {
                case.remembered = remembered
            }),
        ]
        .concat()
    }
}

impl fmt::Display for Writing {
    fn fmt(&self, text: &mut fmt::Formatter) -> fmt::Result {
        let lines = [
            ("letters", in_decimal(&self.letters)),
            ("values", in_decimal(&self.values)),
            ("list", in_decimal(&self.list)),
            ("remembered", in_decimal(&self.remembered)),
            ("room in out", self.room.to_string()),
        ];
        labelled(text, "A command written.", &lines)
    }
}

impl fmt::Display for Written {
    fn fmt(&self, text: &mut fmt::Formatter) -> fmt::Result {
        write!(
            text,
            "returns {}; written {}; remembered {}; out {}",
            self.number,
            self.written,
            in_decimal(&self.remembered),
            self.out
        )
    }
}

#[cfg(test)]
mod tests {
    use super::*;

    fn written(letters: &[u8; 2], values: [i32; 4], list: &[i32], room: usize) -> String {
        let writing = Writing {
            letters: *letters,
            values,
            list: list.to_vec(),
            remembered: [0, 0, 0],
            room,
        };
        writing.by_second().0.to_string()
    }

    #[test]
    fn a_command_is_made_of_values_and_list() {
        assert_eq!(
            written(b"LF", [0, 100, -1, -1], &[-1; 300], 6),
            "returns 0; written 5; remembered 0 100 0; out 27 76 70 121 64 (1 not written)"
        );
        assert_eq!(
            written(b"RP", [4, 0, 0, 0], &[42, 60], 7),
            "returns 0; written 7; remembered 0 0 0; out 27 82 80 52 50 42 60"
        );
    }

    #[test]
    fn what_is_outside_is_refused_before_the_room() {
        let refused = "returns 8; written 0; remembered 0 0 0; out (no room)";
        assert_eq!(written(b"NX", [0; 4], &[], 0), refused);
        assert_eq!(written(b"LF", [-1, 0, 0, 0], &[], 0), refused);
        assert_eq!(written(b"LF", [0, 4096, 0, 0], &[], 0), refused);
        assert_eq!(written(b"IQ", [65, 300, 0, 0], &[], 0), refused);
        assert_eq!(written(b"LT", [0; 4], &[65 + 256], 0), refused);
        assert_eq!(written(b"RD", [0; 4], &[0; 257], 0), refused);
        let short = "returns 7; written 0; remembered 0 0 0; out (3 not written)";
        assert_eq!(written(b"KA", [0; 4], &[], 3), short);
    }
}
