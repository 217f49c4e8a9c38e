//! The items of a stream, one after the other.

use super::job::{alike, Job, Measured};
use super::streams::{array_stream, mixed_stream, mode_1_stream, strewn_stream, string_stream};
use crate::archive;
use crate::plain::items::{next_item, Item};
use crate::plain::remembered::{DelMode, Remembered};
use std::hint::black_box;

const STREAM: usize = 1_000_000;

pub fn jobs() -> Vec<Measured> {
    let of = |name, mode, stream: fn(usize) -> Vec<u8>| Measured {
        name,
        size: "1 MB",
        unit: "byte",
        half: reading(stream(STREAM / 2), mode),
        full: reading(stream(STREAM), mode),
    };
    let (data, filler) = (DelMode::Data, DelMode::Filler);
    vec![
        of("items, mixed", data, mixed_stream),
        of("items, long arrays", data, array_stream),
        of("items, long strings", data, string_stream),
        of("items, mixed, mode 1", filler, mode_1_stream),
        of("items, mixed, mode 1, DELs", filler, strewn_stream),
    ]
}

fn reading(bytes: Vec<u8>, mode: DelMode) -> Box<dyn Job> {
    let list = [0; 256];
    Box::new(Reading { bytes, mode, list })
}

struct Reading {
    bytes: Vec<u8>,
    /// That of the first item.
    mode: DelMode,
    list: [i32; 256],
}

/// What `ardh_next_item` tells of an item.
pub struct Answer {
    pub number: u8,
    pub item: [usize; 7],
    pub values: [i32; 4],
}

impl Answer {
    /// An item of the plain program, told as the archive tells it.
    pub fn of(item: &Item) -> Answer {
        let mut values = [0; 4];
        let (number, item) = match *item {
            Item::Nothing => (0, [0; 7]),
            Item::Text { byte, next } => (0, [1, next, 0, byte.into(), 0, 0, 0]),
            Item::Del { next } => (0, [5, next, 0, 0, 0, 0, 0]),
            Item::Command { command, next } => {
                values = command.values;
                let [first, second] = command.letters.map(usize::from);
                let kind = command.kind as usize;
                (0, [2, next, 0, first, second, kind, command.entries])
            }
            Item::RefusedCommand { refused, next } => {
                let item = [3, next, refused.place, 0, 0, 0, 0];
                (refused.refusal.number(), item)
            }
            Item::Refused(refused) => {
                let item = [4, 0, refused.place, 0, 0, 0, 0];
                (refused.refusal.number(), item)
            }
        };
        Answer {
            number,
            item,
            values,
        }
    }
}

type NextItem = fn(&[u8], usize, &mut Remembered, &mut [i32]) -> Item;

impl Job for Reading {
    fn units(&self) -> usize {
        self.bytes.len()
    }

    fn compare(&mut self) -> Result<(), String> {
        let mut remembered = Remembered::fresh_in(self.mode);
        let mut archive_remembered = remembered.numbers();
        let mut lists = [[-1; 256], [-1; 256]];
        let [archive_list, list] = &mut lists;
        let (mut item, mut values) = ([0; 7], [0; 4]);
        let mut at = 0;
        loop {
            let number = archive::next_item(
                &self.bytes,
                at,
                &mut archive_remembered,
                archive_list,
                &mut item,
                &mut values,
            );
            let told = Answer::of(&next_item(&self.bytes, at, &mut remembered, list));
            alike(number, told.number, at)?;
            alike(item, told.item, at)?;
            alike(values, told.values, at)?;
            alike(archive_remembered, remembered.numbers(), at)?;
            alike(&*archive_list, &*list, at)?;
            if item[0] == 0 {
                return Ok(());
            }
            at = item[1];
        }
    }

    fn run_archive(&mut self) {
        let mut remembered = Remembered::fresh_in(self.mode).numbers();
        let (mut item, mut values) = ([0; 7], [0; 4]);
        let mut at = 0;
        loop {
            archive::next_item(
                &self.bytes,
                at,
                &mut remembered,
                &mut self.list,
                &mut item,
                &mut values,
            );
            black_box(&item);
            if item[0] == 0 {
                break;
            }
            at = item[1];
        }
    }

    fn run_plain(&mut self) {
        let next_item = black_box(next_item as NextItem);
        let mut remembered = Remembered::fresh_in(self.mode);
        let mut at = 0;
        loop {
            let item = next_item(&self.bytes, at, &mut remembered, &mut self.list);
            black_box(&item);
            match item.next() {
                Some(next) => at = next,
                None => break,
            }
        }
    }
}
