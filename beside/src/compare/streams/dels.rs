//! Where the DELs of an item stood, and what a KI did, for the table.

use second::answers::{ReadingRefused, Refusal};
use second::commands::{read_letters, Command};
use second::forms::Parameter;
use second::integers::{read_count, read_integer};
use second::items::{Item, ItemRead};
use second::parameters::{next_byte, past_fillers, DEL, ESC};
use second::points::read_point;
use second::remembered::{DelMode, Remembered};

use crate::compare::names::*;

/// Of an item that starts at a place. Each thing is named once, however often the item met it.
pub fn met(bytes: &[u8], start: usize, before: Remembered, read: &ItemRead) -> Vec<Name> {
    let has_del = bytes[start..read.next].contains(&DEL);
    let mut met = match &read.item {
        Item::Text { .. } if has_del => vec![AS_TEXT],
        Item::Text { .. } => vec![],
        Item::Del { .. } if read.next == bytes.len() => vec![AN_ITEM, LAST_ITEM],
        Item::Del { .. } => vec![AN_ITEM],
        Item::Command { command, .. } => {
            let mut met = by_ki(command);
            match before.mode {
                _ if !has_del => {}
                DelMode::Data => met.push(AS_DATA),
                DelMode::Filler => met.extend(Walk::through(bytes, start, before)),
            }
            met
        }
        Item::RefusedCommand { refused, .. } => {
            in_refused(bytes, start, before.mode, *refused, read.next)
        }
    };
    met.sort();
    met.dedup();
    met
}

pub fn by_ki(command: &Command) -> Vec<Name> {
    match (&command.letters, command.mode_set()) {
        (b"KI", None) => vec![KI_LEAVES],
        (_, None) => vec![],
        (_, Some(DelMode::Filler)) => vec![KI_SETS],
        (_, Some(DelMode::Data)) => vec![KI_CLEARS],
    }
}

/// Goes through a whole command that is read where 127 is filler.
struct Walk<'a> {
    bytes: &'a [u8],
    remembered: Remembered,
    at: usize,
    met: Vec<Name>,
}

impl Walk<'_> {
    fn through(bytes: &[u8], escape: usize, remembered: Remembered) -> Vec<Name> {
        let letters = read_letters(bytes, escape, remembered.mode).expect("it is whole");
        let first = past_fillers(bytes, escape + 1, remembered.mode);
        let mut met = Vec::new();
        met.extend((first > escape + 1).then_some(BEFORE_FIRST));
        met.extend((letters.last > first + 1).then_some(BETWEEN_LETTERS));
        let mut walk = Walk {
            bytes,
            remembered,
            at: letters.next,
            met,
        };
        for &parameter in letters.value.parameters {
            walk.parameter(parameter);
        }
        walk.met
    }

    fn parameter(&mut self, parameter: Parameter) {
        match parameter {
            Parameter::Integer => self.integer(BEFORE_PARAMETER),
            Parameter::Real => {
                self.integer(BEFORE_PARAMETER);
                self.integer(BEFORE_PARAMETER);
            }
            Parameter::Point => {
                let point = read_point(self.bytes, self.at, self.remembered);
                let next = point.expect("it is whole").next;
                self.go_on(next, BEFORE_PARAMETER, IN_POINT);
            }
            Parameter::Character => self.character(BEFORE_PARAMETER),
            Parameter::String => (0..self.count()).for_each(|_| self.character(BEFORE_ENTRY)),
            Parameter::Array => (0..self.count()).for_each(|_| self.integer(BEFORE_ENTRY)),
        }
    }

    fn integer(&mut self, before: Name) {
        let integer = read_integer(self.bytes, self.at, self.remembered.mode);
        self.go_on(integer.expect("it is whole").next, before, IN_INTEGER);
    }

    fn count(&mut self) -> u32 {
        let count = read_count(self.bytes, self.at, self.remembered.mode);
        let count = count.expect("it is whole");
        self.go_on(count.next, BEFORE_PARAMETER, IN_INTEGER);
        count.value
    }

    /// Inside it there is at most the pair.
    fn character(&mut self, before: Name) {
        let byte = next_byte(self.bytes, self.at, self.remembered.mode);
        self.go_on(byte.expect("it is whole").next, before, IN_PAIR);
    }

    fn go_on(&mut self, next: usize, before: Name, inside: Name) {
        let place = past_fillers(self.bytes, self.at, self.remembered.mode);
        self.met.extend((place > self.at).then_some(before));
        for pair in self.bytes[place..next].windows(2) {
            self.met.extend(match pair {
                [ESC, DEL] => Some(IN_PAIR),
                [DEL, DEL] => None,
                [_, DEL] => Some(inside),
                _ => None,
            });
        }
        self.at = next;
    }
}

fn in_refused(
    bytes: &[u8],
    start: usize,
    mode: DelMode,
    refused: ReadingRefused,
    next: usize,
) -> Vec<Name> {
    let ReadingRefused { refusal, place } = refused;
    let letters = read_letters(bytes, start, mode).map(|form| form.value.letters);
    let mut met = Vec::new();
    met.extend((letters == Ok(*b"KI")).then_some(KI_REFUSED));
    if mode == DelMode::Data {
        return met;
    }
    let before = &bytes[start..place];
    let is_cut = refusal == Refusal::BytesEnd && before.ends_with(&[DEL]);
    let last = before.iter().rev().find(|&&byte| byte != DEL);
    let is_escape = refusal == Refusal::NewEscape && bytes[place + 1..].starts_with(&[DEL]);
    let sights = [
        (BEFORE_PLACE, before.contains(&DEL)),
        (PASSED_OVER, bytes[place..next].contains(&DEL)),
        (AT_END, is_cut),
        (ESC_AT_END, is_cut && letters.is_ok() && last == Some(&ESC)),
        (ESC_BEFORE_OTHER, is_escape && letters.is_ok()),
    ];
    let seen = sights.into_iter().filter(|&(_, is_seen)| is_seen);
    met.extend(seen.map(|(name, _)| name));
    met
}

#[cfg(test)]
mod tests {
    use super::*;
    use second::items::item_at;

    /// What the first item of the bytes meets.
    fn met_in(mode: DelMode, bytes: &[u8]) -> Vec<Name> {
        let before = Remembered::fresh_in(mode);
        let read = item_at(bytes, 0, before).unwrap();
        met(bytes, 0, before, &read)
    }

    fn padded(bytes: &[u8]) -> Vec<Name> {
        met_in(DelMode::Filler, bytes)
    }

    #[test]
    fn in_mode_0_a_del_is_text_or_data() {
        assert_eq!(met_in(DelMode::Data, &[127]), [AS_TEXT]);
        assert_eq!(met_in(DelMode::Data, b"\x1bKA\x7f0"), [AS_DATA]);
        assert!(met_in(DelMode::Data, b"\x1bKA\x1b?0\x7f").is_empty());
    }

    #[test]
    fn between_commands_it_is_an_item() {
        assert_eq!(padded(b"\x7fA"), [AN_ITEM]);
        assert_eq!(padded(b"\x7f"), [AN_ITEM, LAST_ITEM]);
        assert!(padded(b"\x1bKA0\x7f").is_empty());
    }

    #[test]
    fn where_it_stands_in_a_command() {
        assert_eq!(padded(b"\x1b\x7fKA0"), [BEFORE_FIRST]);
        assert_eq!(padded(b"\x1bK\x7fA0"), [BETWEEN_LETTERS]);
        assert_eq!(padded(b"\x1bKA\x7f0"), [BEFORE_PARAMETER]);
        assert_eq!(padded(b"\x1bNR0\x7f0"), [BEFORE_PARAMETER]);
        assert_eq!(padded(b"\x1bMR0\x7f0"), [BEFORE_PARAMETER]);
        assert_eq!(padded(b"\x1bKAA\x7f\x7f0"), [IN_INTEGER]);
        assert_eq!(padded(b"\x1bLTA\x7f0ABCDEFGHIJKLMNOP"), [IN_INTEGER]);
        assert_eq!(padded(b"\x1bLFy\x7f@"), [IN_POINT]);
        assert_eq!(padded(b"\x1bLT2A\x7fB"), [BEFORE_ENTRY]);
        assert_eq!(padded(b"\x1bRL2A0\x7fA0"), [BEFORE_ENTRY]);
        assert_eq!(padded(b"\x1bRL2A0A\x7f0"), [IN_INTEGER]);
        for pair in [
            b"\x1bKA\x1b\x7f?0",
            b"\x1bLF\x1b\x7f?@",
            b"\x1bIQ\x1b\x7f?A",
        ] {
            assert_eq!(padded(pair), [IN_PAIR]);
        }
    }

    #[test]
    fn where_it_stands_in_a_refused_command() {
        assert_eq!(padded(b"\x1bK\x7fZ"), [BEFORE_PLACE]);
        assert_eq!(padded(b"\x1bKZ\x7f"), [PASSED_OVER]);
        assert_eq!(padded(b"\x1bKA\x7f"), [AT_END, BEFORE_PLACE]);
        assert_eq!(padded(b"\x1b\x7f"), [AT_END, BEFORE_PLACE]);
        let escape_last = [ESC_AT_END, AT_END, BEFORE_PLACE];
        assert_eq!(padded(b"\x1bKA\x1b\x7f\x7f"), escape_last);
        assert_eq!(padded(b"\x1bKA\x1b\x7fKA0"), [ESC_BEFORE_OTHER]);
        assert!(padded(b"\x1bK\x1b\x7fKA0").is_empty());
        assert!(met_in(DelMode::Data, b"\x1bKA\x1b\x7fKA0").is_empty());
    }

    #[test]
    fn what_ki_does() {
        assert_eq!(padded(b"\x1bKI1"), [KI_SETS]);
        assert_eq!(padded(b"\x1bKI0"), [KI_CLEARS]);
        assert_eq!(padded(b"\x1bKI2"), [KI_LEAVES]);
        assert_eq!(met_in(DelMode::Data, b"\x1bKI@@@1"), [KI_REFUSED]);
        assert!(padded(b"\x1bKA1").is_empty());
    }
}
