//! The items of a stream.

use super::commands::Command;
use super::refusals::{ReadingRefused, Refusal};
use super::remembered::{DelMode, Remembered};
use super::wire::{Reader, DEL, ESC};

#[derive(Clone, Copy, Debug, PartialEq, Eq)]
pub enum Item {
    /// No item is left.
    Nothing,
    Text {
        byte: u8,
        next: usize,
    },
    /// A plain 127 between commands where it is filler.
    Del {
        next: usize,
    },
    Command {
        command: Command,
        next: usize,
    },
    RefusedCommand {
        refused: ReadingRefused,
        next: usize,
    },
    /// There is no item: 7 or 8.
    Refused(ReadingRefused),
}

impl Item {
    /// Where the next item starts.
    pub fn next(&self) -> Option<usize> {
        match *self {
            Item::Nothing | Item::Refused(_) => None,
            Item::Text { next, .. }
            | Item::Del { next }
            | Item::Command { next, .. }
            | Item::RefusedCommand { next, .. } => Some(next),
        }
    }
}

/// The item that starts at `start`. What is remembered is then that behind the item.
pub fn next_item(
    bytes: &[u8],
    start: usize,
    remembered: &mut Remembered,
    list: &mut [i32],
) -> Item {
    if start > bytes.len() || !remembered.point.is_inside() {
        return Item::Refused(ReadingRefused {
            refusal: Refusal::NotValid,
            place: 0,
        });
    }
    let next = start + 1;
    match bytes.get(start) {
        None => Item::Nothing,
        Some(&ESC) => match remembered.mode {
            DelMode::Data => command_item::<false>(bytes, start, remembered, list),
            DelMode::Filler => command_item::<true>(bytes, start, remembered, list),
        },
        Some(&DEL) if remembered.mode == DelMode::Filler => Item::Del { next },
        Some(&byte) => Item::Text { byte, next },
    }
}

fn command_item<const FILLER: bool>(
    bytes: &[u8],
    start: usize,
    remembered: &mut Remembered,
    list: &mut [i32],
) -> Item {
    let mut reader: Reader<FILLER> = Reader { bytes, at: start };
    match reader.command(remembered, list) {
        Ok(command) => Item::Command {
            command,
            next: reader.at,
        },
        Err(refused) if refused.refusal == Refusal::TooShort => Item::Refused(refused),
        Err(refused) => Item::RefusedCommand {
            refused,
            next: next_escape(bytes, refused.place),
        },
    }
}

fn next_escape(bytes: &[u8], from: usize) -> usize {
    match bytes[from..].iter().position(|&byte| byte == ESC) {
        Some(passed) => from + passed,
        None => bytes.len(),
    }
}

#[cfg(test)]
mod tests {
    use super::*;
    use crate::plain::points::Point;
    use crate::plain::table::Kind;

    fn refused(refusal: Refusal, place: usize, next: usize) -> Item {
        Item::RefusedCommand {
            refused: ReadingRefused { refusal, place },
            next,
        }
    }

    #[test]
    fn the_stream_of_the_lister() {
        let bytes = [65, 27, 76, 70, 121, 64, 27, 75, 90, 27, 75, 65, 48];
        let mut remembered = Remembered::FRESH;
        let mut read = |start| next_item(&bytes, start, &mut remembered, &mut []);
        assert_eq!(read(0), Item::Text { byte: 65, next: 1 });
        let move_to = Command {
            letters: *b"LF",
            kind: Kind::OnePoint,
            values: [0, 100, 0, 0],
            entries: 0,
        };
        let command = move_to;
        assert_eq!(read(1), Item::Command { command, next: 6 });
        assert_eq!(read(6), refused(Refusal::UnknownCommand, 8, 9));
        assert!(matches!(read(9), Item::Command { next: 13, .. }));
        assert_eq!(read(13), Item::Nothing);
        assert_eq!(remembered.numbers(), [0, 100, 0]);
    }

    #[test]
    fn a_list_too_short_makes_no_item_and_is_left_as_it_was() {
        let bytes = [27, 82, 76, 50, 49, 50];
        let mut list = [7];
        let mut remembered = Remembered::FRESH;
        let item = next_item(&bytes, 0, &mut remembered, &mut list);
        let place = 0;
        let refusal = Refusal::TooShort;
        assert_eq!(item, Item::Refused(ReadingRefused { refusal, place }));
        assert_eq!(list, [7]);
    }

    #[test]
    fn a_refused_command_leaves_the_list_and_what_is_remembered() {
        let bytes = [27, 82, 76, 50, 49, 128, 65, 27];
        let mut list = [7, 7];
        let mut remembered = Remembered {
            point: Point { x: 1, y: 2 },
            mode: DelMode::Filler,
        };
        let before = remembered;
        let item = next_item(&bytes, 0, &mut remembered, &mut list);
        assert_eq!(item, refused(Refusal::ByteNotAllowed, 5, 7));
        assert_eq!((list, remembered), ([7, 7], before));
    }

    #[test]
    fn behind_ki_1_a_127_is_filler() {
        let bytes = [
            127, 27, 75, 73, 49, 127, 27, 127, 75, 65, 127, 27, 127, 63, 48,
        ];
        let mut remembered = Remembered::FRESH;
        let mut read = |start| next_item(&bytes, start, &mut remembered, &mut []);
        assert_eq!(read(0), Item::Text { byte: 127, next: 1 });
        assert_eq!(read(1).next(), Some(5));
        assert_eq!(read(5), Item::Del { next: 6 });
        let command = Command {
            letters: *b"KA",
            kind: Kind::OneInteger,
            values: [1008, 0, 0, 0],
            entries: 0,
        };
        assert_eq!(read(6), Item::Command { command, next: 15 });
        assert_eq!(remembered.numbers(), [0, 0, 1]);
    }
}
