//! One item, read from any start, with anything remembered and any room.

use std::fmt;

use second::answers::Refusal;
use second::commands::{read_command, read_letters};
use second::forms::Parameter;
use second::integers::{read_count, read_integer};
use second::items::item_at;
use second::parameters::{DEL, ESC};
use second::remembered::{DelMode, Remembered};

use super::dels::met;
use super::making::any_stream;
use super::read::Read;
use crate::compare::case::{in_decimal, labelled, same, untouched, Case, Difference};
use crate::compare::draws::Draws;
use crate::compare::names::Name;
use crate::compare::remembered::{draw_remembered, met_outside, remembered_from};
use crate::compare::shrinking::{lesser, lower, lowered_array, with_each, without_front};
use crate::compare::tally::Row;

const STARTS_OUTSIDE: [usize; 4] = [1, 2, 1 << 32, usize::MAX];

#[derive(Clone)]
pub struct Single {
    pub bytes: Vec<u8>,
    pub start: usize,
    pub remembered: [u16; 3],
    pub room: usize,
}

pub fn single_item(draws: &mut Draws) -> Single {
    let stream = any_stream(draws);
    Single {
        start: draw_start(draws, &stream.bytes),
        bytes: stream.bytes,
        remembered: draw_remembered(draws, stream.mode, 6),
        room: draw_room(draws),
    }
}

fn draw_start(draws: &mut Draws, bytes: &[u8]) -> usize {
    let escapes: Vec<usize> = (0..bytes.len()).filter(|&at| bytes[at] == ESC).collect();
    match draws.below(16) {
        0 => bytes.len().saturating_add(draws.one_of(&STARTS_OUTSIDE)),
        1..=2 => draws.below(bytes.len() + 1),
        _ if escapes.is_empty() => 0,
        _ => draws.one_of(&escapes),
    }
}

fn draw_room(draws: &mut Draws) -> usize {
    match draws.below(4) {
        0 => 0,
        1 => draws.below(4),
        2 => draws.below(257),
        _ => 256,
    }
}

impl Single {
    /// "First 8, with place 0, for a start past the end or a remembered point outside 0..4095", and for another mode than 0 and 1.
    fn before(&self) -> Option<Remembered> {
        let is_start = self.start <= self.bytes.len();
        remembered_from(self.remembered).filter(|_| is_start)
    }

    /// The answer, and what was met on the way.
    fn by_second(&self) -> (Read, Vec<Name>) {
        let mut read = Read::before(self.remembered, self.room);
        let Some(before) = self.before() else {
            read.not_read(8, 0);
            return (read, met_outside(self.remembered));
        };
        let Some(item) = item_at(&self.bytes, self.start, before) else {
            // "A start at the end answers that no item is left."
            read.none_left();
            return (read, vec![]);
        };
        read.take(&item);
        let met = match read.number {
            // It makes no item.
            7 => vec![],
            _ => met(&self.bytes, self.start, before, &item),
        };
        (read, met)
    }

    /// What is wrong, each thing looked at by itself.
    fn reasons(&self) -> Vec<u8> {
        let mut reasons = Vec::new();
        if self.start >= self.bytes.len() || self.bytes[self.start] != ESC {
            return reasons;
        }
        // Where nothing can be read for what is remembered, what could be otherwise.
        let before = remembered_from(self.remembered).unwrap_or(Remembered::FRESH);
        if let Err(refused) = read_command(&self.bytes, self.start, before) {
            reasons.push(refused.refusal.number() as u8);
        }
        if let Some(place) = self.place_of_count(before.mode) {
            let count = read_count(&self.bytes, place, before.mode);
            if count.is_ok_and(|count| count.value as usize > self.room) {
                reasons.push(7);
            }
            if self.is_outside_at_low_byte(place, before.mode) {
                reasons.push(5);
            }
        }
        reasons
    }

    fn place_of_count(&self, mode: DelMode) -> Option<usize> {
        let letters = read_letters(&self.bytes, self.start, mode).ok()?;
        match letters.value.parameters {
            [Parameter::String | Parameter::Array] => Some(letters.next),
            [Parameter::Integer, Parameter::String | Parameter::Array] => {
                let integer = read_integer(&self.bytes, letters.next, mode);
                integer.ok().map(|integer| integer.next)
            }
            _ => None,
        }
    }

    /// An integer out of range is also a count above 256 or below 0, at the same byte. A third high byte is not: its place is 64..127,
    /// or the 63 of a pair.
    fn is_outside_at_low_byte(&self, place: usize, mode: DelMode) -> bool {
        let is_filler = |&&byte: &&u8| mode == DelMode::Filler && byte == DEL;
        read_integer(&self.bytes, place, mode).is_err_and(|refused| {
            let mut before = self.bytes[..refused.place].iter().rev();
            refused.refusal == Refusal::IntegerOutside
                && self.bytes[refused.place] < 64
                && before.find(|byte| !is_filler(byte)) != Some(&ESC)
        })
    }
}

impl Case for Single {
    fn run(&self, row: &mut Row) -> Result<(), Difference> {
        let bytes = self.bytes.clone();
        let mut archive = Read::before(self.remembered, self.room);
        archive.by_archive(&bytes, self.start);
        let (second, met) = self.by_second();
        same(|| "ardh_next_item".to_string(), &archive, &second)?;
        match second.number {
            0 => row.answer(0),
            number => row.refusal(number, &self.reasons()),
        }
        row.meet_all(&met);
        untouched("the bytes", &bytes, &self.bytes)
    }

    fn smaller(&self) -> Vec<Single> {
        let fronts = without_front(&self.bytes, self.start);
        [
            with_each(self, fronts, |case, front| (case.bytes, case.start) = front),
            with_each(self, lesser(&self.bytes), |case, bytes| case.bytes = bytes),
            with_each(self, lower(self.start), |case, start| case.start = start),
            with_each(self, lower(self.room), |case, room| case.room = room),
            with_each(self, lowered_array(self.remembered), |case, remembered| {
                case.remembered = remembered
            }),
        ]
        .concat()
    }
}

impl fmt::Display for Single {
    fn fmt(&self, text: &mut fmt::Formatter) -> fmt::Result {
        let lines = [
            ("bytes", in_decimal(&self.bytes)),
            ("start", self.start.to_string()),
            ("remembered", in_decimal(&self.remembered)),
            ("room in list", self.room.to_string()),
        ];
        labelled(text, "One item.", &lines)
    }
}

#[cfg(test)]
mod tests {
    use super::*;

    fn read(bytes: &[u8], start: usize, remembered: [u16; 3], room: usize) -> String {
        let case = Single {
            bytes: bytes.to_vec(),
            start,
            remembered,
            room,
        };
        case.by_second().0.to_string()
    }

    #[test]
    fn a_start_a_point_or_a_mode_outside_comes_first() {
        let not_read = "returns 8; item 4 0 0 0 0 0 0; values 0 0 0 0;";
        assert!(read(&[27], 2, [0, 0, 0], 0).starts_with(not_read));
        assert!(read(&[27], 0, [0, 4096, 0], 0).starts_with(not_read));
        assert!(read(&[27], 0, [0, 0, 2], 0).starts_with(not_read));
        assert!(read(&[], 0, [4096, 0, 1], 0).starts_with(not_read));
        let none_left = "returns 0; item 0 0 0 0 0 0 0;";
        assert!(read(&[], 0, [4095, 4095, 1], 0).starts_with(none_left));
    }

    #[test]
    fn a_del_is_an_item_in_mode_1_and_text_in_mode_0() {
        let del = "returns 0; item 5 1 0 0 0 0 0; values 0 0 0 0; remembered 3 4 1;";
        assert!(read(&[127], 0, [3, 4, 1], 0).starts_with(del));
        let text = "returns 0; item 1 1 0 127 0 0 0;";
        assert!(read(&[127], 0, [3, 4, 0], 0).starts_with(text));
    }

    #[test]
    fn ki_moves_the_mode_that_is_remembered() {
        let ki = "returns 0; item 2 5 0 75 73 1 0; values 1 0 0 0; remembered 3 4 1;";
        assert!(read(b"\x1bKI\x7f1", 0, [3, 4, 1], 0).starts_with(ki));
        assert!(read(b"\x1bKI1", 0, [3, 4, 0], 0).ends_with("remembered 3 4 1; list (no room)"));
        assert!(read(b"\x1bKI0", 0, [3, 4, 1], 0).ends_with("remembered 3 4 0; list (no room)"));
    }

    #[test]
    fn a_list_too_short_makes_no_item() {
        let bytes = b"A\x1bLT2HI";
        let short = read(bytes, 1, [3, 4, 0], 1);
        assert!(short.starts_with("returns 7; item 4 0 1 0 0 0 0;"));
        assert!(short.ends_with("remembered 3 4 0; list (1 not written)"));
        let whole = read(bytes, 1, [3, 4, 0], 3);
        assert!(whole.starts_with("returns 0; item 2 7 0 76 84 7 2;"));
        assert!(whole.ends_with("list 72 73 (1 not written)"));
    }

    #[test]
    fn bytes_behind_a_refusal_belong_to_it() {
        let refused = read(b"\x1bKZ01\x1bKA0", 0, [0, 0, 0], 0);
        assert!(refused.starts_with("returns 2; item 3 5 2 0 0 0 0;"));
    }

    #[test]
    fn reasons_are_found_one_by_one() {
        let reasons = |bytes: &[u8], room| {
            let case = Single {
                bytes: bytes.to_vec(),
                start: 0,
                remembered: [0, 0, 0],
                room,
            };
            case.reasons()
        };
        assert_eq!(reasons(b"\x1bLT2H\x01", 2), [3]);
        assert_eq!(reasons(b"\x1bLT2H\x01", 1), [3, 7]);
        assert_eq!(reasons(b"\x1bKD02", 0), [1, 7]);
        assert_eq!(reasons(b"\x1bRD`@0", 0), [4, 5]);
        assert_eq!(reasons(b"\x1bRD@@\x1b?", 0), [4]);
    }
}
