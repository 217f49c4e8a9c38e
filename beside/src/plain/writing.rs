//! Writing a command in its shortest spelling.

use super::integers::{integer_length, is_integer, spell_integer, MOST_ENTRIES};
use super::points::{spell_point, Point};
use super::refusals::Refusal;
use super::remembered::{DelMode, Remembered};
use super::table::{kind_of, Entry, Kind};
use super::wire::{DEL, ESC, PAIRED};

/// ESC, two letters, fixed parameters (two points and three integers have the most bytes, twelve with pairs) and a count.
const LONGEST_FRONT: usize = 16;

/// What stands before the entries of a command. As in reading, the code of each mode is its own.
struct Front<const FILLER: bool> {
    bytes: [u8; LONGEST_FRONT],
    length: usize,
}

impl<const FILLER: bool> Front<FILLER> {
    fn integer(&mut self, value: i32) -> Result<(), Refusal> {
        if !is_integer(value) {
            return Err(Refusal::NotValid);
        }
        let spelled = spell_integer(value, &mut self.bytes[self.length..]);
        self.grow(spelled);
        Ok(())
    }

    fn character(&mut self, value: i32) -> Result<(), Refusal> {
        if !is_character(value) {
            return Err(Refusal::NotValid);
        }
        self.bytes[self.length] = value as u8;
        self.grow(1);
        Ok(())
    }

    fn point(&mut self, last: Point, x: i32, y: i32) -> Result<Point, Refusal> {
        if !(0..=4095).contains(&x) || !(0..=4095).contains(&y) {
            return Err(Refusal::NotValid);
        }
        let point = Point {
            x: x as u16,
            y: y as u16,
        };
        let spelled = spell_point(last, point, &mut self.bytes[self.length..]);
        self.grow(spelled);
        Ok(point)
    }

    /// By so many bytes that stand behind it. Where 127 is filler, the pair takes the place of each.
    fn grow(&mut self, spelled: usize) {
        let mut at = self.length;
        self.length += spelled;
        while FILLER && at < self.length {
            if self.bytes[at] == DEL {
                self.bytes.copy_within(at + 1..self.length, at + 2);
                self.bytes[at] = ESC;
                at += 1;
                self.bytes[at] = PAIRED;
                self.length += 1;
            }
            at += 1;
        }
    }
}

/// The command to the front of `out`, and its length. What is remembered is then that behind the command.
pub fn write_command(
    letters: [u8; 2],
    values: &[i32; 4],
    list: &[i32],
    remembered: &mut Remembered,
    out: &mut [u8],
) -> Result<usize, Refusal> {
    match remembered.mode {
        DelMode::Data => write_in_mode::<false>(letters, values, list, remembered, out),
        DelMode::Filler => write_in_mode::<true>(letters, values, list, remembered, out),
    }
}

fn write_in_mode<const FILLER: bool>(
    letters: [u8; 2],
    values: &[i32; 4],
    list: &[i32],
    remembered: &mut Remembered,
    out: &mut [u8],
) -> Result<usize, Refusal> {
    let kind = kind_of(letters).ok_or(Refusal::NotValid)?;
    if !remembered.point.is_inside() {
        return Err(Refusal::NotValid);
    }
    let mut front: Front<FILLER> = Front {
        bytes: [0; LONGEST_FRONT],
        length: 3,
    };
    front.bytes[..3].copy_from_slice(&[ESC, letters[0], letters[1]]);
    let after = spell_values(kind, values, remembered.point, &mut front)?;
    let tail = spell_count(kind, list, &mut front)?;
    let length = front.length + tail;
    if length > out.len() {
        return Err(Refusal::TooShort);
    }
    out[..front.length].copy_from_slice(&front.bytes[..front.length]);
    let place = &mut out[front.length..length];
    match kind.entries() {
        None => {}
        Some(entry) if FILLER => spell_entries_with_pairs(entry, list, place),
        Some(entry) => spell_entries(entry, list, place),
    }
    remembered.point = after;
    if letters == *b"KI" {
        remembered.ignore_deletes(values[0]);
    }
    Ok(length)
}

/// The fixed parameters; the point behind them is handed back.
fn spell_values<const FILLER: bool>(
    kind: Kind,
    values: &[i32; 4],
    point: Point,
    front: &mut Front<FILLER>,
) -> Result<Point, Refusal> {
    match kind {
        Kind::OneInteger | Kind::IntegerThenArray | Kind::IntegerThenString => {
            front.integer(values[0])?;
        }
        Kind::TwoIntegers | Kind::AReal => {
            front.integer(values[0])?;
            front.integer(values[1])?;
        }
        Kind::ThreeIntegers => {
            front.integer(values[0])?;
            front.integer(values[1])?;
            front.integer(values[2])?;
        }
        Kind::OnePoint => return front.point(point, values[0], values[1]),
        Kind::TwoPoints => {
            let first = front.point(point, values[0], values[1])?;
            return front.point(first, values[2], values[3]);
        }
        Kind::TwoCharacters => {
            front.character(values[0])?;
            front.character(values[1])?;
        }
        Kind::AString | Kind::AnArray => {}
    }
    Ok(point)
}

/// The count of a string or an array; how many bytes its entries take is handed back.
fn spell_count<const FILLER: bool>(
    kind: Kind,
    list: &[i32],
    front: &mut Front<FILLER>,
) -> Result<usize, Refusal> {
    let Some(entry) = kind.entries() else {
        return Ok(0);
    };
    let fit = match entry {
        Entry::Character => list.iter().all(|&value| is_character(value)),
        Entry::Integer => list.iter().all(|&value| is_integer(value)),
    };
    if list.len() > MOST_ENTRIES || !fit {
        return Err(Refusal::NotValid);
    }
    front.integer(list.len() as i32)?;
    let bytes = match entry {
        Entry::Character => list.len(),
        Entry::Integer => list.iter().map(|&value| integer_length(value)).sum(),
    };
    let has_del = |value: &&i32| match entry {
        Entry::Character => **value == i32::from(DEL),
        Entry::Integer => value.unsigned_abs() >> 4 & 63 == 63,
    };
    Ok(match FILLER {
        false => bytes,
        true => bytes + list.iter().filter(has_del).count(),
    })
}

/// The entries into a place that is as long as they are.
fn spell_entries(entry: Entry, list: &[i32], out: &mut [u8]) {
    match entry {
        Entry::Character => {
            for (byte, &value) in out.iter_mut().zip(list) {
                *byte = value as u8;
            }
        }
        Entry::Integer => {
            let mut at = 0;
            for &value in list {
                at += spell_integer(value, &mut out[at..]);
            }
        }
    }
}

/// The same where 127 is filler.
fn spell_entries_with_pairs(entry: Entry, list: &[i32], out: &mut [u8]) {
    let mut at = 0;
    for value in list {
        let mut bytes = [0; 3];
        let length = match entry {
            Entry::Character => {
                bytes[0] = *value as u8;
                1
            }
            Entry::Integer => spell_integer(*value, &mut bytes),
        };
        for &byte in &bytes[..length] {
            if byte == DEL {
                out[at] = ESC;
                at += 1;
            }
            out[at] = if byte == DEL { PAIRED } else { byte };
            at += 1;
        }
    }
}

fn is_character(value: i32) -> bool {
    (32..=127).contains(&value)
}

#[cfg(test)]
mod tests {
    use super::*;

    fn write_in(
        mode: DelMode,
        letters: &[u8; 2],
        values: [i32; 4],
        list: &[i32],
    ) -> Result<Vec<u8>, Refusal> {
        let mut out = [0; 20];
        let mut remembered = Remembered::fresh_in(mode);
        let length = write_command(*letters, &values, list, &mut remembered, &mut out)?;
        Ok(out[..length].to_vec())
    }

    fn write(letters: &[u8; 2], values: [i32; 4], list: &[i32]) -> Result<Vec<u8>, Refusal> {
        write_in(DelMode::Data, letters, values, list)
    }

    #[test]
    fn each_kind_is_written() {
        assert_eq!(write(b"KA", [0; 4], &[]), Ok(vec![27, 75, 65, 48]));
        let to = write(b"LF", [0, 100, 0, 0], &[]);
        assert_eq!(to, Ok(vec![27, 76, 70, 121, 64]));
        let run = write(b"RL", [0; 4], &[21, -16]);
        assert_eq!(run, Ok(vec![27, 82, 76, 50, 65, 53, 65, 32]));
        let raster = write(b"RP", [4, 0, 0, 0], &[42, 60]);
        assert_eq!(raster, Ok(vec![27, 82, 80, 52, 50, 42, 60]));
    }

    #[test]
    fn where_127_is_filler_the_pair_is_written() {
        for (letters, values, list, parameters) in [
            (b"KA", [32767, 0, 0, 0], &[][..], &[95, 27, 63, 63][..]),
            (b"RS", [0, 124, 4, 0], &[], &[27, 63, 64, 96, 65]),
            (b"IQ", [127, 63, 0, 0], &[], &[27, 63, 63]),
            (b"LT", [0; 4], &[127, 63], &[50, 27, 63, 63]),
            (b"RL", [0; 4], &[1023, -1008], &[50, 27, 63, 63, 27, 63, 32]),
        ] {
            let written = write_in(DelMode::Filler, letters, values, list);
            let expected = [&[27], &letters[..], parameters].concat();
            assert_eq!(written, Ok(expected));
        }
    }

    #[test]
    fn eight_comes_before_seven_and_neither_touches_what_is_lent() {
        let point = Point { x: 1, y: 2 };
        let mut remembered = Remembered {
            point,
            ..Remembered::FRESH
        };
        let mut out = [9; 4];
        let mut write =
            |x, out: &mut [u8]| write_command(*b"LF", &[x, 0, 0, 0], &[], &mut remembered, out);
        assert_eq!(write(4096, &mut []), Err(Refusal::NotValid));
        assert_eq!(write(4095, &mut out), Err(Refusal::TooShort));
        assert_eq!(out, [9; 4]);
        assert_eq!(remembered.point, point);
    }

    #[test]
    fn letters_of_no_command_and_long_lists_are_refused() {
        assert_eq!(write(b"NX", [0; 4], &[]), Err(Refusal::NotValid));
        assert_eq!(write(b"RD", [0; 4], &[0; 257]), Err(Refusal::NotValid));
        assert_eq!(write(b"KA", [32768, 0, 0, 0], &[]), Err(Refusal::NotValid));
    }
}
