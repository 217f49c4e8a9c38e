//! One byte of a command's parameter, with the pair that stands for DEL, and the DELs that are passed over.

use crate::answers::{ReadingRefused, Refusal};
use crate::remembered::DelMode;

pub const ESC: u8 = 27;
pub const DEL: u8 = 127;
const PAIR_END: u8 = 63;

#[derive(Clone, Copy, Debug, PartialEq, Eq)]
pub struct ParameterByte {
    /// 32 to 127.
    pub value: u8,
    pub place: usize,
    pub next: usize,
}

/// Reads the byte at a place, or the pair there, behind what is passed over. No parameter allows a byte outside 32..127.
pub fn next_byte(
    bytes: &[u8],
    start: usize,
    mode: DelMode,
) -> Result<ParameterByte, ReadingRefused> {
    let place = past_fillers(bytes, start, mode);
    match bytes.get(place) {
        None => Err(Refusal::BytesEnd.at(bytes.len())),
        Some(&ESC) => pair_at(bytes, place, mode),
        Some(&value @ 32..=DEL) => Ok(ParameterByte {
            value,
            place,
            next: place + 1,
        }),
        Some(_) => Err(Refusal::ByteNotAllowed.at(place)),
    }
}

/// "In a parameter, 27 at the end of the bytes is 1; 27 before another byte than 63 is 6 at the 27."
fn pair_at(bytes: &[u8], escape: usize, mode: DelMode) -> Result<ParameterByte, ReadingRefused> {
    // "A 127 between the two bytes of a pair is passed over too."
    let place = past_fillers(bytes, escape + 1, mode);
    match bytes.get(place) {
        None => Err(Refusal::BytesEnd.at(bytes.len())),
        // "For the pair 27 63 the place is that of the 63."
        Some(&PAIR_END) => Ok(ParameterByte {
            value: DEL,
            place,
            next: place + 1,
        }),
        Some(_) => Err(Refusal::NewEscape.at(escape)),
    }
}

/// The first place from a start on at which no 127 stands that is passed over.
pub fn past_fillers(bytes: &[u8], start: usize, mode: DelMode) -> usize {
    match mode {
        DelMode::Data => start,
        DelMode::Filler => {
            let fillers = bytes.iter().skip(start).take_while(|&&byte| byte == DEL);
            start + fillers.count()
        }
    }
}

/// A parameter's bytes as they are written: where 127 is filler the pair stands for it, for "ESC 63 still reads as 127 in a parameter,
/// and the writer in that mode writes it so".
pub fn sent(parameter: &[u8], mode: DelMode) -> Vec<u8> {
    let mut sent = Vec::with_capacity(parameter.len());
    for &byte in parameter {
        match (byte, mode) {
            (DEL, DelMode::Filler) => sent.extend([ESC, PAIR_END]),
            _ => sent.push(byte),
        }
    }
    sent
}

#[cfg(test)]
mod tests {
    use super::*;
    use DelMode::{Data, Filler};

    #[test]
    fn a_byte_stands_for_itself() {
        for (mode, last) in [(Data, 127), (Filler, 126)] {
            for value in 32..=last {
                let byte = next_byte(&[0, value], 1, mode).unwrap();
                assert_eq!((byte.value, byte.place, byte.next), (value, 1, 2));
            }
        }
    }

    #[test]
    fn a_pair_reads_as_del_at_its_second_byte() {
        for mode in [Data, Filler] {
            let byte = next_byte(&[27, 63], 0, mode).unwrap();
            assert_eq!((byte.value, byte.place, byte.next), (127, 1, 2));
        }
    }

    #[test]
    fn fillers_are_passed_over_before_a_byte_and_in_a_pair() {
        let byte = next_byte(&[127, 127, 65, 127], 0, Filler).unwrap();
        assert_eq!((byte.value, byte.place, byte.next), (65, 2, 3));
        let byte = next_byte(&[127, 27, 127, 127, 63, 127], 0, Filler).unwrap();
        assert_eq!((byte.value, byte.place, byte.next), (127, 4, 5));
    }

    #[test]
    fn refusals() {
        for mode in [Data, Filler] {
            let next = |bytes, place| next_byte(bytes, place, mode);
            assert_eq!(next(&[65], 1), Err(Refusal::BytesEnd.at(1)));
            assert_eq!(next(&[65], 9), Err(Refusal::BytesEnd.at(1)));
            assert_eq!(next(&[65, 27], 1), Err(Refusal::BytesEnd.at(2)));
            assert_eq!(next(&[27, 64], 0), Err(Refusal::NewEscape.at(0)));
            assert_eq!(next(&[27, 27], 0), Err(Refusal::NewEscape.at(0)));
            assert_eq!(next(&[31], 0), Err(Refusal::ByteNotAllowed.at(0)));
            assert_eq!(next(&[128], 0), Err(Refusal::ByteNotAllowed.at(0)));
            assert_eq!(next(&[255], 0), Err(Refusal::ByteNotAllowed.at(0)));
        }
    }

    #[test]
    fn del_is_sent_as_the_pair_where_it_is_filler() {
        assert_eq!(sent(&[95, 127, 63], Data), [95, 127, 63]);
        assert_eq!(sent(&[95, 127, 63], Filler), [95, 27, 63, 63]);
        assert_eq!(sent(&[127, 127], Filler), [27, 63, 27, 63]);
    }
}
