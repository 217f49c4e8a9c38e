//! A command behind its ESC: its letters, then its parameters.

use super::integers::MOST_ENTRIES;
use super::points::Point;
use super::refusals::{refused, ReadingRefused, Refusal};
use super::remembered::Remembered;
use super::table::{begins_command, kind_of, Entry, Kind};
use super::wire::{Reader, ESC};

#[derive(Clone, Copy, Debug, PartialEq, Eq)]
pub struct Command {
    pub letters: [u8; 2],
    pub kind: Kind,
    /// Its fixed parameters; a point is x and then y.
    pub values: [i32; 4],
    /// How many entries the front of the lent list has.
    pub entries: usize,
}

impl<const FILLER: bool> Reader<'_, FILLER> {
    /// What is remembered is set, and the list filled, once the whole command is known to be good.
    pub fn command(
        &mut self,
        remembered: &mut Remembered,
        list: &mut [i32],
    ) -> Result<Command, ReadingRefused> {
        let start = self.at;
        self.at += 1;
        let (letters, kind) = self.letters()?;
        let mut command = Command {
            letters,
            kind,
            values: [0; 4],
            entries: 0,
        };
        match kind {
            Kind::OnePoint | Kind::TwoPoints => {
                remembered.point = self.points(&mut command, remembered.point)?;
            }
            Kind::AString | Kind::AnArray => {}
            _ => self.numbers(&mut command)?,
        }
        if letters == *b"KI" {
            remembered.ignore_deletes(command.values[0]);
        }
        if let Some(entry) = kind.entries() {
            command.entries = self.list(entry, start, list)?;
        }
        Ok(command)
    }

    fn letters(&mut self) -> Result<([u8; 2], Kind), ReadingRefused> {
        let first = self.letter()?;
        if !begins_command(first) {
            return refused(Refusal::UnknownCommand, self.at - 1);
        }
        let letters = [first, self.letter()?];
        match kind_of(letters) {
            Some(kind) => Ok((letters, kind)),
            None => refused(Refusal::UnknownCommand, self.at - 1),
        }
    }

    fn letter(&mut self) -> Result<u8, ReadingRefused> {
        self.pass_fillers();
        match self.bytes.get(self.at) {
            None => refused(Refusal::BytesEnd, self.bytes.len()),
            Some(&ESC) => refused(Refusal::NewEscape, self.at),
            Some(&letter) => {
                self.at += 1;
                Ok(letter)
            }
        }
    }

    fn numbers(&mut self, command: &mut Command) -> Result<(), ReadingRefused> {
        let values = &mut command.values;
        match command.kind {
            Kind::TwoCharacters => {
                values[0] = self.character()?;
                values[1] = self.character()?;
            }
            Kind::TwoIntegers | Kind::AReal => {
                values[0] = self.integer()?;
                values[1] = self.integer()?;
            }
            Kind::ThreeIntegers => {
                values[0] = self.integer()?;
                values[1] = self.integer()?;
                values[2] = self.integer()?;
            }
            _ => values[0] = self.integer()?,
        }
        Ok(())
    }

    /// The points of a command, the second from the first; the last of them is handed back.
    fn points(&mut self, command: &mut Command, last: Point) -> Result<Point, ReadingRefused> {
        let first = self.point(last)?;
        command.values[0] = i32::from(first.x);
        command.values[1] = i32::from(first.y);
        if command.kind == Kind::OnePoint {
            return Ok(first);
        }
        let second = self.point(first)?;
        command.values[2] = i32::from(second.x);
        command.values[3] = i32::from(second.y);
        Ok(second)
    }

    fn character(&mut self) -> Result<i32, ReadingRefused> {
        Ok(i32::from(self.take()?.byte))
    }

    /// The entries wait in an array until the last of them is read: the lent list is not touched by a refused command.
    fn list(
        &mut self,
        entry: Entry,
        start: usize,
        list: &mut [i32],
    ) -> Result<usize, ReadingRefused> {
        let count = self.count()?;
        let mut entries = [0; MOST_ENTRIES];
        for value in &mut entries[..count] {
            *value = match entry {
                Entry::Character => self.character()?,
                Entry::Integer => self.integer()?,
            };
        }
        if count > list.len() {
            return refused(Refusal::TooShort, start);
        }
        list[..count].copy_from_slice(&entries[..count]);
        Ok(count)
    }
}
