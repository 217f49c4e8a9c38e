//! The items of a run of bytes: text, DELs that are filler, commands and refused commands.

use std::iter::successors;

use crate::answers::ReadingRefused;
use crate::commands::{read_command, Command};
use crate::parameters::{DEL, ESC};
use crate::remembered::{DelMode, Remembered};

#[derive(Clone, Debug, PartialEq, Eq)]
pub enum Item {
    Text {
        place: usize,
        byte: u8,
    },
    /// "Or makes an item of its own between commands."
    Del {
        place: usize,
    },
    Command {
        start: usize,
        command: Command,
    },
    RefusedCommand {
        start: usize,
        refused: ReadingRefused,
    },
}

/// An item, the place where the next one starts, and what is remembered there.
#[derive(Clone, Debug, PartialEq, Eq)]
pub struct ItemRead {
    pub item: Item,
    pub next: usize,
    pub remembered: Remembered,
}

/// All items of the bytes, taken as the whole, from what is remembered when fresh.
pub fn items_of(bytes: &[u8]) -> Vec<Item> {
    let reads = items_from(bytes, Remembered::FRESH);
    reads.map(|read| read.item).collect()
}

pub fn items_from(bytes: &[u8], remembered: Remembered) -> impl Iterator<Item = ItemRead> + '_ {
    let first = item_at(bytes, 0, remembered);
    successors(first, |read| item_at(bytes, read.next, read.remembered))
}

/// The item that starts at a place; none at the end.
pub fn item_at(bytes: &[u8], start: usize, remembered: Remembered) -> Option<ItemRead> {
    let place = start;
    let item = match *bytes.get(place)? {
        ESC => return Some(command_at(bytes, start, remembered)),
        DEL if remembered.mode == DelMode::Filler => Item::Del { place },
        byte => Item::Text { place, byte },
    };
    Some(ItemRead {
        item,
        next: place + 1,
        remembered,
    })
}

fn command_at(bytes: &[u8], start: usize, remembered: Remembered) -> ItemRead {
    match read_command(bytes, start, remembered) {
        Ok(found) => ItemRead {
            next: found.next,
            remembered: remembered.behind(&found.value),
            item: Item::Command {
                start,
                command: found.value,
            },
        },
        // "The remembered point after a refused command is that before it", and "a refused KI changes nothing".
        Err(refused) => ItemRead {
            item: Item::RefusedCommand { start, refused },
            next: next_escape(bytes, refused.place),
            remembered,
        },
    }
}

/// "If the byte there is 27, reading starts again on it; otherwise bytes are passed over up to the next 27", or to the end
/// where none follows.
fn next_escape(bytes: &[u8], place: usize) -> usize {
    let passed_over = bytes[place..].iter().take_while(|&&byte| byte != ESC);
    place + passed_over.count()
}

#[cfg(test)]
mod tests {
    use super::*;
    use crate::answers::Refusal;
    use crate::commands::Value;
    use crate::points::Point;

    fn text(place: usize, byte: u8) -> Item {
        Item::Text { place, byte }
    }

    fn one_value(start: usize, letters: &[u8; 2], value: Value) -> Item {
        let command = Command {
            letters: *letters,
            values: vec![value],
        };
        Item::Command { start, command }
    }

    fn refused(start: usize, refusal: Refusal, place: usize) -> Item {
        let refused = refusal.at(place);
        Item::RefusedCommand { start, refused }
    }

    #[test]
    fn no_bytes_are_no_items() {
        assert_eq!(items_of(&[]), []);
    }

    #[test]
    fn each_byte_but_27_is_text() {
        let bytes: Vec<u8> = (0..=255).filter(|&byte| byte != ESC).collect();
        let items = items_of(&bytes);
        assert_eq!(items.len(), 255);
        for (place, item) in items.iter().enumerate() {
            assert_eq!(*item, text(place, bytes[place]));
        }
    }

    #[test]
    fn text_goes_on_behind_a_command() {
        assert_eq!(
            items_of(b"\x1bKA0A\x1bKA1"),
            [
                one_value(0, b"KA", Value::Integer(0)),
                text(4, 65),
                one_value(5, b"KA", Value::Integer(1)),
            ]
        );
    }

    #[test]
    fn reading_starts_again_on_a_new_escape() {
        assert_eq!(
            items_of(b"\x1bKA@\x1bKA0"),
            [
                refused(0, Refusal::NewEscape, 4),
                one_value(4, b"KA", Value::Integer(0)),
            ]
        );
        assert_eq!(
            items_of(&[ESC, ESC, ESC]),
            [
                refused(0, Refusal::NewEscape, 1),
                refused(1, Refusal::NewEscape, 2),
                refused(2, Refusal::BytesEnd, 3),
            ]
        );
    }

    #[test]
    fn other_bytes_are_passed_over_up_to_the_next_escape() {
        assert_eq!(
            items_of(b"\x1bKZ012\x1bKA0"),
            [
                refused(0, Refusal::UnknownCommand, 2),
                one_value(6, b"KA", Value::Integer(0)),
            ]
        );
        assert_eq!(
            items_of(b"\x1bKA@@@ABC"),
            [refused(0, Refusal::IntegerOutside, 5)]
        );
        // A pair is none any more where a refused command has ended before it.
        assert_eq!(
            items_of(b"\x1bKA@@@\x1b?A"),
            [
                refused(0, Refusal::IntegerOutside, 5),
                refused(6, Refusal::UnknownCommand, 7),
            ]
        );
    }

    #[test]
    fn a_refused_pair_is_passed_over_from_its_63_on() {
        assert_eq!(
            items_of(b"\x1bKA@@\x1b?A\x1bKA0"),
            [
                refused(0, Refusal::IntegerOutside, 6),
                one_value(8, b"KA", Value::Integer(0)),
            ]
        );
    }

    #[test]
    fn a_27_that_ends_the_bytes_in_a_parameter_is_no_item_of_its_own() {
        assert_eq!(items_of(b"\x1bKA@\x1b"), [refused(0, Refusal::BytesEnd, 5)]);
    }

    #[test]
    fn the_last_point_is_remembered() {
        let point = Value::Point(Point { x: 0, y: 100 });
        assert_eq!(
            items_of(b"\x1bLFy@A\x1bKA0\x1bLF@"),
            [
                one_value(0, b"LF", point.clone()),
                text(5, 65),
                one_value(6, b"KA", Value::Integer(0)),
                one_value(10, b"LF", point),
            ]
        );
    }

    #[test]
    fn a_refused_command_leaves_the_remembered_point() {
        // RS with a whole first point (0,100) and a second that is not allowed.
        assert_eq!(
            items_of(b"\x1bRSy@\x01\x1bLF@"),
            [
                refused(0, Refusal::ByteNotAllowed, 5),
                one_value(6, b"LF", Value::Point(Point::FRESH)),
            ]
        );
    }
}
