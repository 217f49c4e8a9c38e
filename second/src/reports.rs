//! Integer and string reports to the host. "27 is 3 here, and there are no pairs": each byte is read as it stands.

use std::ops::RangeInclusive;

use crate::answers::{put, Found, Reading, ReadingRefused, Refusal, Writing};
use crate::integers::{count_from, join_low_byte, low_byte_of};

const GREATEST: i32 = 65535;
const HIGH_BYTES: RangeInclusive<u8> = 32..=95;
const LOW_BYTES: RangeInclusive<u8> = 32..=63;
const CHARACTERS: RangeInclusive<u8> = 32..=127;
const MOST_CHARACTERS: usize = 256;

fn byte_in(range: RangeInclusive<u8>, bytes: &[u8], place: usize) -> Result<u8, ReadingRefused> {
    match bytes.get(place) {
        None => Err(Refusal::BytesEnd.at(bytes.len())),
        Some(byte) if range.contains(byte) => Ok(*byte),
        Some(_) => Err(Refusal::ByteNotAllowed.at(place)),
    }
}

/// "Three bytes, high bytes 32..95 less 32 times 1024 and 16, and a low byte 32..63."
pub fn read_integer_report(bytes: &[u8], start: usize) -> Reading<i32> {
    if start > bytes.len() {
        return Err(Refusal::NotValid.at(0));
    }
    let first = byte_in(HIGH_BYTES, bytes, start)? - 32;
    let second = byte_in(HIGH_BYTES, bytes, start + 1)? - 32;
    let low = byte_in(LOW_BYTES, bytes, start + 2)?;
    let high = i32::from(first) * 64 + i32::from(second);
    Ok(Found {
        value: join_low_byte(high, low),
        last: start + 2,
        next: start + 3,
    })
}

pub fn write_integer_report(value: i32, bytes: &mut [u8], place: usize) -> Writing {
    if !(-GREATEST..=GREATEST).contains(&value) {
        return Err(Refusal::NotValid);
    }
    put(&spell_integer_report(value), bytes, place)
}

fn spell_integer_report(value: i32) -> [u8; 3] {
    let magnitude = value.unsigned_abs();
    [
        32 + (magnitude / 1024) as u8,
        32 + (magnitude / 16 % 64) as u8,
        low_byte_of(value),
    ]
}

/// Reads a string report into the front of a lent list and answers the number of its entries.
/// The list is changed only by a whole report that it has room for.
pub fn read_string_report(bytes: &[u8], start: usize, list: &mut [i32]) -> Reading<usize> {
    let length = read_integer_report(bytes, start)?;
    let count = count_from(length.value).ok_or(Refusal::CountOutside.at(length.last))? as usize;
    let next = length.next + count;
    for place in length.next..next {
        byte_in(CHARACTERS, bytes, place)?;
    }
    // 7 "at the start, only for a whole report".
    let entries = list.get_mut(..count).ok_or(Refusal::TooShort.at(start))?;
    for (entry, &byte) in entries.iter_mut().zip(&bytes[length.next..next]) {
        *entry = i32::from(byte);
    }
    Ok(Found {
        value: count,
        last: next - 1,
        next,
    })
}

pub fn write_string_report(list: &[i32], bytes: &mut [u8], place: usize) -> Writing {
    if list.len() > MOST_CHARACTERS {
        return Err(Refusal::NotValid);
    }
    let mut spelling = spell_integer_report(list.len() as i32).to_vec();
    for &entry in list {
        spelling.push(character_from(entry).ok_or(Refusal::NotValid)?);
    }
    put(&spelling, bytes, place)
}

fn character_from(entry: i32) -> Option<u8> {
    u8::try_from(entry)
        .ok()
        .filter(|byte| CHARACTERS.contains(byte))
}

#[cfg(test)]
mod tests {
    use super::*;

    const WORKED: [(i32, [u8; 3]); 6] = [
        (0, [32, 32, 48]),
        (300, [32, 50, 60]),
        (600, [32, 69, 56]),
        (1200, [33, 43, 48]),
        (65535, [95, 95, 63]),
        (-65535, [95, 95, 47]),
    ];

    #[test]
    fn worked_reports_are_written_and_read() {
        for (value, spelling) in WORKED {
            let mut bytes = [255; 5];
            assert_eq!(write_integer_report(value, &mut bytes, 1), Ok(4));
            assert_eq!(bytes[1..4], spelling);
            let found = read_integer_report(&bytes, 1).unwrap();
            assert_eq!((found.value, found.last, found.next), (value, 3, 4));
        }
    }

    #[test]
    fn minus_nought_reads_as_nought() {
        assert_eq!(read_integer_report(&[32, 32, 32], 0).unwrap().value, 0);
    }

    #[test]
    fn a_start_past_the_end_comes_first() {
        assert_eq!(read_integer_report(&[0], 2), Err(Refusal::NotValid.at(0)));
        assert_eq!(read_integer_report(&[0], 1), Err(Refusal::BytesEnd.at(1)));
        assert_eq!(
            read_string_report(&[0], 2, &mut []),
            Err(Refusal::NotValid.at(0))
        );
    }

    #[test]
    fn the_earliest_byte_decides() {
        let cases: [(&[u8], ReadingRefused); 6] = [
            (&[27, 63, 32, 48], Refusal::ByteNotAllowed.at(0)),
            (&[96], Refusal::ByteNotAllowed.at(0)),
            (&[32, 31], Refusal::ByteNotAllowed.at(1)),
            (&[32, 32, 64], Refusal::ByteNotAllowed.at(2)),
            (&[32, 32], Refusal::BytesEnd.at(2)),
            (&[32, 32, 31], Refusal::ByteNotAllowed.at(2)),
        ];
        for (bytes, refused) in cases {
            assert_eq!(read_integer_report(bytes, 0), Err(refused));
        }
    }

    #[test]
    fn integer_reports_out_of_range_are_not_written() {
        for value in [65536, -65536, i32::MAX, i32::MIN] {
            assert_eq!(
                write_integer_report(value, &mut [], 0),
                Err(Refusal::NotValid)
            );
        }
        let mut bytes = [255; 3];
        assert_eq!(
            write_integer_report(600, &mut bytes, 1),
            Err(Refusal::TooShort)
        );
        assert_eq!(bytes, [255; 3]);
    }

    #[test]
    fn a_string_report_is_written_and_read() {
        let mut bytes = [255; 8];
        assert_eq!(write_string_report(&[72, 127], &mut bytes, 1), Ok(6));
        assert_eq!(bytes, [255, 32, 32, 50, 72, 127, 255, 255]);
        let mut list = [-1; 3];
        let found = read_string_report(&bytes, 1, &mut list).unwrap();
        assert_eq!((found.value, found.last, found.next), (2, 5, 6));
        assert_eq!(list, [72, 127, -1]);
    }

    #[test]
    fn an_empty_string_report_ends_with_its_length() {
        let found = read_string_report(&[32, 32, 48], 0, &mut []).unwrap();
        assert_eq!((found.value, found.last, found.next), (0, 2, 3));
    }

    #[test]
    fn refused_string_reports_leave_the_list() {
        let cases: [(&[u8], ReadingRefused); 6] = [
            // 257 and -1 as lengths.
            (&[32, 48, 49], Refusal::CountOutside.at(2)),
            (&[32, 32, 33], Refusal::CountOutside.at(2)),
            (&[32, 32, 50, 72, 27], Refusal::ByteNotAllowed.at(4)),
            (&[32, 32, 50, 72, 128], Refusal::ByteNotAllowed.at(4)),
            (&[32, 32, 50, 72], Refusal::BytesEnd.at(4)),
            (&[32, 32, 50, 72, 73], Refusal::TooShort.at(0)),
        ];
        for (bytes, refused) in cases {
            let mut list = [-1];
            assert_eq!(read_string_report(bytes, 0, &mut list), Err(refused));
            assert_eq!(list, [-1]);
        }
    }

    #[test]
    fn wrong_entries_are_refused_before_the_room() {
        for entry in [31, 128, -1, 32 + 256] {
            assert_eq!(
                write_string_report(&[entry], &mut [], 0),
                Err(Refusal::NotValid)
            );
        }
        assert_eq!(
            write_string_report(&[32; 257], &mut [], 0),
            Err(Refusal::NotValid)
        );
        assert_eq!(
            write_string_report(&[32; 256], &mut [0; 258], 0),
            Err(Refusal::TooShort)
        );
    }
}
