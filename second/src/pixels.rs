//! RP and RL: pixels stored on lent bytes.

use crate::answers::Refusal;
use crate::record::{Record, Size};

const GREATEST_NUMBER: i32 = 32767;
const MOST_ENTRIES: usize = 256;
const BITS_OF_A_CHARACTER: usize = 6;

/// It "sends the beam to the left edge of the row below", and names no pixel.
const END_OF_ROW: i32 = 96;

/// The bytes that are lent, top row first, and the size that is said to be theirs.
pub struct Surface<'a> {
    pub bytes: &'a mut [u8],
    pub size: Size,
}

impl Surface<'_> {
    /// RP: N pixels out of raster characters. Returns the number of pixels.
    pub fn write_raster(
        &mut self,
        record: &mut Record,
        n: i32,
        characters: &[i32],
    ) -> Result<usize, Refusal> {
        self.check(record)?;
        check_numbers(&[n], characters.len())?;
        let stretches = stretches_of(n as usize, characters, record.bits)?;
        for (ends_before, colours) in stretches.iter().enumerate() {
            if ends_before > 0 {
                record.go_to_next_row();
            }
            self.store(record, colours.iter().copied());
            record.advance(colours.len());
        }
        Ok(stretches.iter().map(Vec::len).sum())
    }

    /// RL: runs, each a code. Returns the number of pixels.
    pub fn write_runs(&mut self, record: &mut Record, codes: &[i32]) -> Result<usize, Refusal> {
        self.check(record)?;
        check_numbers(codes, codes.len())?;
        let mut pixels = 0;
        for &code in codes {
            let (length, colour) = run_of(code, record.bits);
            self.store(record, std::iter::repeat_n(colour, length));
            record.advance(length);
            pixels += length;
        }
        Ok(pixels)
    }

    /// "Order: 11, 8 for the record, 9".
    fn check(&self, record: &Record) -> Result<(), Refusal> {
        self.size.check()?;
        if self.bytes.len() != self.size.w * self.size.h {
            return Err(Refusal::SurfaceSize);
        }
        record.check(self.size)?;
        if record.bits == 0 {
            return Err(Refusal::BitsNotSet);
        }
        Ok(())
    }

    fn store(&mut self, record: &Record, colours: impl Iterator<Item = u8>) {
        for (places, colour) in colours.enumerate() {
            self.bytes[record.index_past_beam(places, self.size)] = colour;
        }
    }
}

/// "8 for a number outside 0..32767 .. or a list of more than 256".
fn check_numbers(numbers: &[i32], entries: usize) -> Result<(), Refusal> {
    let in_range = numbers
        .iter()
        .all(|number| (0..=GREATEST_NUMBER).contains(number));
    if in_range && entries <= MOST_ENTRIES {
        Ok(())
    } else {
        Err(Refusal::NotValid)
    }
}

/// The colours of RP, parted where an end of row stands: with k of them there are k + 1 stretches, empty ones too.
fn stretches_of(n: usize, characters: &[i32], bits: usize) -> Result<Vec<Vec<u8>>, Refusal> {
    let is_end = |character: &i32| *character == END_OF_ROW;
    let ends = characters.iter().filter(|&character| is_end(character));
    let others = characters.len() - ends.count();
    if others != n.div_ceil(BITS_OF_A_CHARACTER / bits) {
        return Err(Refusal::RasterCharacters);
    }
    let mut left = n;
    let mut stretches = Vec::new();
    for stretch in characters.split(is_end) {
        let mut colours = colours_of(stretch, bits)?;
        // The spare pixels of the last character are dropped.
        colours.truncate(left);
        left -= colours.len();
        stretches.push(colours);
    }
    Ok(stretches)
}

/// "Each character is 32 plus six bits, 32..95, and takes its pixels from the top bits down, 6/bits to a character."
fn colours_of(characters: &[i32], bits: usize) -> Result<Vec<u8>, Refusal> {
    let in_character = BITS_OF_A_CHARACTER / bits;
    let mut colours = Vec::new();
    for &character in characters {
        if !(32..=95).contains(&character) {
            return Err(Refusal::RasterCharacters);
        }
        let six_bits = (character - 32) as u8;
        let from_the_top = (0..in_character).rev();
        colours.extend(from_the_top.map(|k| six_bits >> (k * bits) & mask(bits)));
    }
    Ok(colours)
}

/// "Length times 2^bits plus colour".
fn run_of(code: i32, bits: usize) -> (usize, u8) {
    ((code >> bits) as usize, code as u8 & mask(bits))
}

fn mask(bits: usize) -> u8 {
    (1 << bits) - 1
}

#[cfg(test)]
mod tests {
    use super::*;
    use crate::points::Point;

    const SIZE: Size = Size { w: 3, h: 2 };

    fn record_of(bits: i32) -> Record {
        let mut record = Record::fresh(SIZE).unwrap();
        record.set_bits(SIZE, [1, 11, bits]).unwrap();
        record
    }

    fn raster(
        bytes: &mut [u8],
        record: &mut Record,
        n: i32,
        characters: &[i32],
    ) -> Result<usize, Refusal> {
        Surface { bytes, size: SIZE }.write_raster(record, n, characters)
    }

    fn runs(bytes: &mut [u8], record: &mut Record, codes: &[i32]) -> Result<usize, Refusal> {
        Surface { bytes, size: SIZE }.write_runs(record, codes)
    }

    #[test]
    fn the_sheet_has_four_pixels_in_42_60() {
        assert_eq!(stretches_of(4, &[42, 60], 3), Ok(vec![vec![1, 2, 3, 4]]));
        assert_eq!(run_of(21, 3), (2, 5));
    }

    #[test]
    fn characters_are_taken_from_the_top_bits_down() {
        // 32 and 0b011011.
        let character = [32 + 27];
        assert_eq!(colours_of(&character, 1), Ok(vec![0, 1, 1, 0, 1, 1]));
        assert_eq!(colours_of(&character, 2), Ok(vec![1, 2, 3]));
        assert_eq!(colours_of(&character, 3), Ok(vec![3, 3]));
        assert_eq!(colours_of(&character, 6), Ok(vec![27]));
        let five = vec![vec![0, 1, 1, 0, 1]];
        assert_eq!(stretches_of(5, &character, 1), Ok(five));
    }

    #[test]
    fn ends_of_row_part_the_colours() {
        let parted = vec![vec![], vec![1, 2], vec![], vec![3], vec![]];
        let characters = [96, 42, 96, 96, 60, 96];
        assert_eq!(stretches_of(3, &characters, 3), Ok(parted));
        assert_eq!(stretches_of(0, &[96], 3), Ok(vec![vec![], vec![]]));
        assert_eq!(stretches_of(0, &[], 3), Ok(vec![vec![]]));
    }

    #[test]
    fn a_write_goes_on_where_the_last_one_ended() {
        let mut bytes = [9; 6];
        let mut record = record_of(3);
        assert_eq!(raster(&mut bytes, &mut record, 1, &[32 + 8 + 7]), Ok(1));
        assert_eq!(runs(&mut bytes, &mut record, &[3 * 8 + 2]), Ok(3));
        assert_eq!(bytes, [1, 2, 2, 2, 9, 9]);
        assert_eq!((record.x, record.y), (1, 0));
    }

    #[test]
    fn from_the_last_place_to_the_upper_left_of_the_viewport() {
        let mut bytes = [9; 6];
        let mut record = record_of(6);
        let corners = [Point { x: 2, y: 1 }, Point { x: 1, y: 0 }];
        record.set_viewport(SIZE, corners).unwrap();
        let codes = [64 + 5, 6, 4 * 64 + 63];
        assert_eq!(runs(&mut bytes, &mut record, &codes), Ok(5));
        assert_eq!(bytes, [9, 63, 63, 9, 63, 63]);
        assert_eq!((record.x, record.y), (2, 1));
    }

    #[test]
    fn nothing_named_is_done() {
        let mut bytes = [9; 6];
        let mut record = record_of(1);
        assert_eq!(raster(&mut bytes, &mut record, 0, &[]), Ok(0));
        assert_eq!(runs(&mut bytes, &mut record, &[]), Ok(0));
        assert_eq!(runs(&mut bytes, &mut record, &[0, 1]), Ok(0));
        assert_eq!((bytes, record), ([9; 6], record_of(1)));
    }

    #[test]
    fn refused_for_the_number_before_the_characters() {
        let mut bytes = [9; 6];
        let mut record = record_of(6);
        for (n, characters, refusal) in [
            (-1, &[31][..], Refusal::NotValid),
            (32768, &[], Refusal::NotValid),
            (1, &[32; 257], Refusal::NotValid),
            (257, &[32; 256], Refusal::RasterCharacters),
            (32767, &[32; 256], Refusal::RasterCharacters),
            (1, &[31], Refusal::RasterCharacters),
            (1, &[97], Refusal::RasterCharacters),
            (1, &[], Refusal::RasterCharacters),
            (0, &[32], Refusal::RasterCharacters),
        ] {
            let answer = raster(&mut bytes, &mut record, n, characters);
            assert_eq!(answer, Err(refusal));
        }
        for codes in [&[-1][..], &[64, 32768], &[0; 257]] {
            let answer = runs(&mut bytes, &mut record, codes);
            assert_eq!(answer, Err(Refusal::NotValid));
        }
        assert_eq!((bytes, record), ([9; 6], record_of(6)));
    }

    #[test]
    fn refused_for_the_size_then_the_record_then_the_bits() {
        let mut bytes = [9; 6];
        let mut record = Record::fresh(SIZE).unwrap();
        let without_bits = runs(&mut bytes, &mut record, &[-1]);
        assert_eq!(without_bits, Err(Refusal::BitsNotSet));
        record.x = 3;
        let not_valid = runs(&mut bytes, &mut record, &[-1]);
        assert_eq!(not_valid, Err(Refusal::NotValid));
        let too_few = runs(&mut bytes[..5], &mut record, &[-1]);
        assert_eq!(too_few, Err(Refusal::SurfaceSize));
    }

    #[test]
    fn the_greatest_writes() {
        let mut bytes = [9; 6];
        let mut record = record_of(1);
        assert_eq!(raster(&mut bytes, &mut record, 1536, &[32; 256]), Ok(1536));
        let all = runs(&mut bytes, &mut record, &[32767; 256]);
        assert_eq!(all, Ok(16383 * 256));
        assert_eq!(bytes, [1; 6]);
    }
}
