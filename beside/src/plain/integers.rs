//! Integers and counts: read, and spelled.

use super::refusals::{refused, ReadingRefused, Refusal};
use super::wire::{Reader, Taken};

pub const MOST_ENTRIES: usize = 256;

impl<const FILLER: bool> Reader<'_, FILLER> {
    pub fn integer(&mut self) -> Result<i32, ReadingRefused> {
        Ok(self.placed_integer()?.0)
    }

    pub fn count(&mut self) -> Result<usize, ReadingRefused> {
        let (value, place) = self.placed_integer()?;
        if value < 0 || value as usize > MOST_ENTRIES {
            return refused(Refusal::CountOutside, place);
        }
        Ok(value as usize)
    }

    /// An integer, and the place of its low byte.
    fn placed_integer(&mut self) -> Result<(i32, usize), ReadingRefused> {
        let mut high = 0;
        for _ in 0..2 {
            let taken = self.take()?;
            if taken.byte < 64 {
                return with_low_byte(high, taken);
            }
            high = high * 64 + i32::from(taken.byte - 64);
        }
        let taken = self.take()?;
        if taken.byte < 64 {
            return with_low_byte(high, taken);
        }
        refused(Refusal::IntegerOutside, taken.place)
    }
}

fn with_low_byte(high: i32, low: Taken) -> Result<(i32, usize), ReadingRefused> {
    let magnitude = high * 16 + i32::from(low.byte & 15);
    let value = if low.byte & 16 == 0 {
        -magnitude
    } else {
        magnitude
    };
    if !is_integer(value) {
        return refused(Refusal::IntegerOutside, low.place);
    }
    Ok((value, low.place))
}

pub fn is_integer(value: i32) -> bool {
    (-32768..=32767).contains(&value)
}

/// How many bytes an integer is spelled with.
pub fn integer_length(value: i32) -> usize {
    match value.unsigned_abs() {
        0..=15 => 1,
        16..=1023 => 2,
        _ => 3,
    }
}

/// The spelling of an integer to the front of `out`, and its length.
pub fn spell_integer(value: i32, out: &mut [u8]) -> usize {
    let magnitude = value.unsigned_abs();
    let sign = if value < 0 { 32 } else { 48 };
    let low = sign + (magnitude & 15) as u8;
    let middle = 64 + (magnitude >> 4 & 63) as u8;
    let length = integer_length(value);
    match length {
        1 => out[0] = low,
        2 => out[..2].copy_from_slice(&[middle, low]),
        _ => out[..3].copy_from_slice(&[64 + (magnitude >> 10) as u8, middle, low]),
    }
    length
}

#[cfg(test)]
mod tests {
    use super::*;

    fn read(bytes: &[u8]) -> Result<i32, ReadingRefused> {
        Reader::<false> { bytes, at: 0 }.integer()
    }

    #[test]
    fn the_integers_of_the_sheet_are_spelled_and_read_back() {
        let sheet: [(i32, &[u8]); 7] = [
            (0, &[48]),
            (-1, &[33]),
            (15, &[63]),
            (-16, &[65, 32]),
            (1200, &[65, 75, 48]),
            (32767, &[95, 127, 63]),
            (-32768, &[96, 64, 32]),
        ];
        for (value, spelling) in sheet {
            let mut out = [0; 3];
            let length = spell_integer(value, &mut out);
            assert_eq!(&out[..length], spelling);
            assert_eq!(read(spelling), Ok(value));
        }
    }

    #[test]
    fn one_more_than_the_greatest_is_refused_at_its_low_byte() {
        assert_eq!(read(&[96, 64, 48]), refused(Refusal::IntegerOutside, 2));
        assert_eq!(read(&[64, 64, 64]), refused(Refusal::IntegerOutside, 2));
    }

    #[test]
    fn minus_nought_and_leading_noughts_are_read() {
        assert_eq!(read(&[32]), Ok(0));
        assert_eq!(read(&[64, 64, 63]), Ok(15));
    }

    #[test]
    fn a_pair_stands_for_127() {
        assert_eq!(read(&[95, 27, 63, 63]), Ok(32767));
        assert_eq!(read(&[95, 27]), refused(Refusal::BytesEnd, 2));
        assert_eq!(read(&[95, 27, 75]), refused(Refusal::NewEscape, 1));
    }
}
