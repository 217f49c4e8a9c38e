//! Integers and counts as parameters of commands.

use crate::answers::{put, Found, Reading, Refusal, Spelling, Writing};
use crate::parameters::next_byte;
use crate::remembered::DelMode;

const SMALLEST: i32 = -32768;
const GREATEST: i32 = 32767;
const GREATEST_COUNT: u32 = 256;
const MOST_HIGH_BYTES: usize = 2;

/// "Up to two high bytes 64..127, six bits each, then a low byte 32..63."
pub fn read_integer(bytes: &[u8], start: usize, mode: DelMode) -> Reading<i32> {
    let mut high = 0;
    let mut high_bytes = 0;
    let mut byte = next_byte(bytes, start, mode)?;
    while byte.value >= 64 {
        if high_bytes == MOST_HIGH_BYTES {
            return Err(Refusal::IntegerOutside.at(byte.place));
        }
        high = high * 64 + i32::from(byte.value - 64);
        high_bytes += 1;
        byte = next_byte(bytes, byte.next, mode)?;
    }
    let value = join_low_byte(high, byte.value);
    if !(SMALLEST..=GREATEST).contains(&value) {
        return Err(Refusal::IntegerOutside.at(byte.place));
    }
    Ok(Found {
        value,
        last: byte.place,
        next: byte.next,
    })
}

/// A low byte holds "four bits of magnitude, and 16 added when the number is not negative".
/// Minus nought comes out as 0 by itself.
pub fn join_low_byte(high: i32, low_byte: u8) -> i32 {
    let magnitude = high * 16 + i32::from(low_byte & 15);
    if low_byte & 16 == 0 {
        -magnitude
    } else {
        magnitude
    }
}

pub fn low_byte_of(value: i32) -> u8 {
    let sign = if value < 0 { 0 } else { 16 };
    32 + sign + (value.unsigned_abs() % 16) as u8
}

pub fn write_integer(value: i32, bytes: &mut [u8], place: usize) -> Writing {
    put(&spell_integer(value)?, bytes, place)
}

/// "Leading high bytes of value 0 are accepted and never written."
pub fn spell_integer(value: i32) -> Spelling {
    if !(SMALLEST..=GREATEST).contains(&value) {
        return Err(Refusal::NotValid);
    }
    let high = value.unsigned_abs() / 16;
    let mut spelling = Vec::with_capacity(MOST_HIGH_BYTES + 1);
    if high >= 64 {
        spelling.push(64 + (high / 64) as u8);
    }
    if high >= 1 {
        spelling.push(64 + (high % 64) as u8);
    }
    spelling.push(low_byte_of(value));
    Ok(spelling)
}

/// "A count is an integer 0..256." Of the refusals at one byte, 4 comes before 5.
pub fn read_count(bytes: &[u8], start: usize, mode: DelMode) -> Reading<u32> {
    let integer = read_integer(bytes, start, mode)?;
    match count_from(integer.value) {
        Some(value) => Ok(Found {
            value,
            last: integer.last,
            next: integer.next,
        }),
        None => Err(Refusal::CountOutside.at(integer.last)),
    }
}

pub fn count_from(value: i32) -> Option<u32> {
    u32::try_from(value)
        .ok()
        .filter(|&count| count <= GREATEST_COUNT)
}

pub fn spell_count(count: u32) -> Spelling {
    if count > GREATEST_COUNT {
        return Err(Refusal::NotValid);
    }
    spell_integer(count as i32)
}

#[cfg(test)]
mod tests {
    use super::*;

    const WORKED: [(i32, &[u8]); 7] = [
        (0, &[48]),
        (-1, &[33]),
        (15, &[63]),
        (-16, &[65, 32]),
        (1200, &[65, 75, 48]),
        (32767, &[95, 127, 63]),
        (-32768, &[96, 64, 32]),
    ];

    fn read_integer(bytes: &[u8], start: usize) -> Reading<i32> {
        super::read_integer(bytes, start, DelMode::Data)
    }

    fn read_count(bytes: &[u8], start: usize) -> Reading<u32> {
        super::read_count(bytes, start, DelMode::Data)
    }

    #[test]
    fn worked_integers_are_written_and_read() {
        for (value, spelling) in WORKED {
            let mut bytes = [255; 5];
            let end = 1 + spelling.len();
            assert_eq!(write_integer(value, &mut bytes, 1), Ok(end));
            assert_eq!(&bytes[1..end], spelling);
            assert!(bytes[end..].iter().all(|&byte| byte == 255));
            let found = read_integer(&bytes, 1).unwrap();
            assert_eq!((found.value, found.last, found.next), (value, end - 1, end));
        }
    }

    #[test]
    fn minus_nought_reads_as_nought() {
        assert_eq!(read_integer(&[32], 0).unwrap().value, 0);
        assert_eq!(read_integer(&[64, 64, 32], 0).unwrap().value, 0);
    }

    #[test]
    fn leading_high_bytes_of_nought_are_accepted() {
        assert_eq!(read_integer(&[64, 64, 51], 0).unwrap().value, 3);
    }

    #[test]
    fn a_pair_is_a_high_byte() {
        let found = read_integer(&[95, 27, 63, 63], 0).unwrap();
        assert_eq!((found.value, found.last, found.next), (32767, 3, 4));
    }

    #[test]
    fn integers_out_of_range_are_refused_at_the_low_byte() {
        let refused = Err(Refusal::IntegerOutside.at(2));
        assert_eq!(read_integer(&[96, 64, 48], 0), refused);
        assert_eq!(read_integer(&[96, 64, 33], 0), refused);
        assert_eq!(read_integer(&[127, 127, 63], 0), refused);
    }

    #[test]
    fn a_third_high_byte_is_refused_where_it_stands() {
        assert_eq!(
            read_integer(&[64, 64, 64, 48], 0),
            Err(Refusal::IntegerOutside.at(2))
        );
        assert_eq!(
            read_integer(&[64, 64, 27, 63, 48], 0),
            Err(Refusal::IntegerOutside.at(3))
        );
    }

    #[test]
    fn bytes_that_end_are_refused_at_the_length() {
        assert_eq!(read_integer(&[64, 64], 0), Err(Refusal::BytesEnd.at(2)));
        assert_eq!(read_integer(&[], 0), Err(Refusal::BytesEnd.at(0)));
    }

    #[test]
    fn writing_refuses_the_value_before_the_room() {
        assert_eq!(write_integer(32768, &mut [], 0), Err(Refusal::NotValid));
        assert_eq!(write_integer(-32769, &mut [], 0), Err(Refusal::NotValid));
        assert_eq!(write_integer(0, &mut [], 0), Err(Refusal::TooShort));
        assert_eq!(spell_count(257), Err(Refusal::NotValid));
    }

    #[test]
    fn counts_are_integers_from_0_to_256() {
        // 256 is 16 times 16, so 80 and then a low byte of four bits 0.
        assert_eq!(read_count(&[80, 48], 0).unwrap().value, 256);
        assert_eq!(read_count(&[80, 49], 0), Err(Refusal::CountOutside.at(1)));
        assert_eq!(read_count(&[33], 0), Err(Refusal::CountOutside.at(0)));
        assert_eq!(read_count(&[32], 0).unwrap().value, 0);
    }

    #[test]
    fn an_integer_out_of_range_is_4_before_5() {
        assert_eq!(
            read_count(&[96, 64, 48], 0),
            Err(Refusal::IntegerOutside.at(2))
        );
    }
}
