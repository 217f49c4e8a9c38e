//! A stream read from its first byte to its last, item by item.

use std::fmt;

use second::items::items_from;
use second::remembered::{DelMode, Remembered};

use super::dels::met;
use super::read::Read;
use crate::compare::case::{in_decimal, labelled, same, untouched, Case, Difference};
use crate::compare::remembered::numbers_of;
use crate::compare::shrinking::lesser;
use crate::compare::tally::Row;

/// The longest string or array: with this room no reading is refused for want of it.
const ROOM: usize = 256;

#[derive(Clone)]
pub struct Stream {
    /// That of the first item.
    pub mode: DelMode,
    pub bytes: Vec<u8>,
}

impl Case for Stream {
    fn run(&self, row: &mut Row) -> Result<(), Difference> {
        let bytes = self.bytes.clone();
        let mut before = Remembered::fresh_in(self.mode);
        let mut archive = Read::before(numbers_of(before), ROOM);
        let mut second = archive.clone();
        let mut start = 0;
        for read in items_from(&self.bytes, before) {
            second.take(&read);
            archive.by_archive(&bytes, start);
            self.compare(start, &archive, &second)?;
            row.answer(second.number);
            row.meet_all(&met(&bytes, start, before, &read));
            (start, before) = (read.next, read.remembered);
        }
        // The list keeps what the items before have left there: beyond its own entries an item changes nothing.
        second.none_left();
        archive.by_archive(&bytes, start);
        self.compare(start, &archive, &second)?;
        row.answer(second.number);
        untouched("the bytes", &bytes, &self.bytes)
    }

    fn smaller(&self) -> Vec<Stream> {
        let with = |bytes| Stream {
            mode: self.mode,
            bytes,
        };
        lesser(&self.bytes).into_iter().map(with).collect()
    }
}

impl Stream {
    fn compare(&self, start: usize, archive: &Read, second: &Read) -> Result<(), Difference> {
        let call = || format!("ardh_next_item at start {start}, list of {ROOM}");
        same(call, archive, second)
    }
}

impl fmt::Display for Stream {
    fn fmt(&self, text: &mut fmt::Formatter) -> fmt::Result {
        let remembered = numbers_of(Remembered::fresh_in(self.mode));
        let lines = [
            ("remembered", in_decimal(&remembered)),
            ("bytes", in_decimal(&self.bytes)),
        ];
        labelled(text, "A stream read item by item.", &lines)
    }
}
