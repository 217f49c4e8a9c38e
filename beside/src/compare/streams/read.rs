//! All that the reading of an item answers and leaves behind.

use std::fmt;

use second::answers::ReadingRefused;
use second::commands::Command;
use second::forms::{form_of, Parameter};
use second::items::{Item, ItemRead};

use crate::archive;
use crate::compare::case::in_decimal;
use crate::compare::fence::{Fenced, Junk};
use crate::compare::remembered::numbers_of;
use crate::compare::values::{four, numbers_and_list};

const TEXT: usize = 1;
const COMMAND: usize = 2;
const REFUSED_COMMAND: usize = 3;
const REFUSED_CALL: usize = 4;
const DEL_ITEM: usize = 5;

#[derive(Clone, Debug, PartialEq)]
pub struct Read {
    pub number: u8,
    item: [usize; 7],
    values: [i32; 4],
    pub remembered: [u16; 3],
    list: Fenced<i32>,
}

impl Read {
    pub fn before(remembered: [u16; 3], room: usize) -> Read {
        Read {
            number: 0,
            item: [0; 7],
            values: [0; 4],
            remembered,
            list: Fenced::room(room),
        }
    }

    pub fn by_archive(&mut self, bytes: &[u8], start: usize) {
        self.item = [usize::JUNK; 7];
        self.values = [i32::JUNK; 4];
        self.number = archive::next_item(
            bytes,
            start,
            &mut self.remembered,
            self.list.lent(),
            &mut self.item,
            &mut self.values,
        );
    }

    /// "Each is written at every call, with 0 in what the answer does not have."
    pub fn none_left(&mut self) {
        self.number = 0;
        self.item = [0; 7];
        self.values = [0; 4];
    }

    /// An item that the second program has read.
    pub fn take(&mut self, read: &ItemRead) {
        let next = read.next;
        match &read.item {
            Item::Text { byte, .. } => self.answer([TEXT, next, 0, usize::from(*byte), 0, 0, 0]),
            Item::Del { .. } => self.answer([DEL_ITEM, next, 0, 0, 0, 0, 0]),
            Item::Command { start, command } => self.command(command, *start, read),
            Item::RefusedCommand { refused, .. } => self.refused(*refused, next),
        }
    }

    fn answer(&mut self, item: [usize; 7]) {
        self.none_left();
        self.item = item;
    }

    fn refused(&mut self, refused: ReadingRefused, next: usize) {
        self.answer([REFUSED_COMMAND, next, refused.place, 0, 0, 0, 0]);
        self.number = refused.refusal.number() as u8;
    }

    pub fn not_read(&mut self, number: u8, place: usize) {
        self.answer([REFUSED_CALL, 0, place, 0, 0, 0, 0]);
        self.number = number;
    }

    /// A whole command, or 7 where the lent list is too short for its entries.
    fn command(&mut self, command: &Command, start: usize, read: &ItemRead) {
        let (numbers, entries) = numbers_and_list(command);
        let Some(front) = self.list.lent().get_mut(..entries.len()) else {
            return self.not_read(7, start);
        };
        front.copy_from_slice(&entries);
        let [first, second] = command.letters.map(usize::from);
        let kind = kind_number(command);
        self.answer([COMMAND, read.next, 0, first, second, kind, entries.len()]);
        self.values = four(&numbers);
        self.remembered = numbers_of(read.remembered);
    }
}

/// The header's number of the kind of a command's parameters.
fn kind_number(command: &Command) -> usize {
    use Parameter::{Array, Character, Integer, Point, Real, String};
    let form = form_of(command.letters).expect("a command that was read is in the table");
    match form.parameters {
        [Integer] => 1,
        [Integer, Integer] => 2,
        [Integer, Integer, Integer] => 3,
        [Point] => 4,
        [Point, Point] => 5,
        [Real] => 6,
        [String] => 7,
        [Array] => 8,
        [Integer, Array] => 9,
        [Integer, String] => 10,
        [Character, Character] => 11,
        _ => unreachable!("the header has no such kind"),
    }
}

impl fmt::Display for Read {
    fn fmt(&self, text: &mut fmt::Formatter) -> fmt::Result {
        write!(
            text,
            "returns {}; item {}; values {}; remembered {}; list {}",
            self.number,
            in_decimal(&self.item),
            in_decimal(&self.values),
            in_decimal(&self.remembered),
            self.list
        )
    }
}
