//! Macro stores: entries in lent bytes.

use std::collections::BTreeMap;
use std::ops::RangeInclusive;

use crate::answers::Refusal;

const NUMBERS: RangeInclusive<i32> = 0..=32767;
const CONTENTS: RangeInclusive<i32> = 0..=127;
const MOST_CONTENTS: usize = 256;
const HEADER: usize = 3;
const BITS_OF_LENGTH: u32 = 9;

/// The bodies by their numbers, which rise.
type Macros<'a> = BTreeMap<u32, &'a [u8]>;

pub fn is_well_formed(store: &[u8]) -> bool {
    macros_of(store).is_some()
}

/// None where the store is malformed.
fn macros_of(store: &[u8]) -> Option<Macros<'_>> {
    let mut macros = Macros::new();
    let mut rest = store;
    // "The rest of the store is all zeros." A header is not: its length is 1 at least.
    while rest.iter().any(|&byte| byte != 0) {
        let (number, body) = first_entry(rest)?;
        if macros.keys().next_back() >= Some(&number) {
            return None;
        }
        macros.insert(number, body);
        rest = &rest[HEADER + body.len()..];
    }
    Some(macros)
}

/// "Three bytes, bit-packed, most significant first: 15 bits of number, 9 bits of body length 1..256. The body follows, bytes 0..127."
fn first_entry(bytes: &[u8]) -> Option<(u32, &[u8])> {
    let header = bytes.get(..HEADER)?;
    let packed = header
        .iter()
        .fold(0, |packed, &byte| packed << 8 | u32::from(byte));
    let length = (packed % (1 << BITS_OF_LENGTH)) as usize;
    let body = bytes[HEADER..].get(..length)?;
    let is_body = (1..=MOST_CONTENTS).contains(&length) && body.iter().all(|&byte| byte <= 127);
    is_body.then_some((packed >> BITS_OF_LENGTH, body))
}

/// The header and the body, be its length one that a store may have or not.
pub fn append_entry(bytes: &mut Vec<u8>, number: u32, body: &[u8]) {
    let packed = number << BITS_OF_LENGTH | body.len() as u32;
    bytes.extend(&packed.to_be_bytes()[1..]);
    bytes.extend(body);
}

/// Defines, replaces or deletes. "Order: 12, 8, 13."
pub fn define(store: &mut [u8], number: i32, contents: &[i32]) -> Result<(), Refusal> {
    let mut macros = macros_of(store).ok_or(Refusal::StoreMalformed)?;
    let number = check_number(number)?;
    let body = body_of(contents)?;
    if body.is_empty() {
        macros.remove(&number);
    } else {
        macros.insert(number, &body);
    }
    let mut bytes = Vec::new();
    for (&number, body) in &macros {
        append_entry(&mut bytes, number, body);
    }
    // "13 is given exactly if the new entries together exceed the store."
    if bytes.len() > store.len() {
        return Err(Refusal::StoreTooShort);
    }
    bytes.resize(store.len(), 0);
    store.copy_from_slice(&bytes);
    Ok(())
}

fn check_number(number: i32) -> Result<u32, Refusal> {
    if NUMBERS.contains(&number) {
        Ok(number as u32)
    } else {
        Err(Refusal::NotValid)
    }
}

/// "Contents 0..127, at most 256 of them, else 8."
fn body_of(contents: &[i32]) -> Result<Vec<u8>, Refusal> {
    let in_range = contents.iter().all(|entry| CONTENTS.contains(entry));
    if in_range && contents.len() <= MOST_CONTENTS {
        Ok(contents.iter().map(|&entry| entry as u8).collect())
    } else {
        Err(Refusal::NotValid)
    }
}

/// Two well-formed stores, as looking up takes them.
pub struct Stores<'a> {
    volatile: Macros<'a>,
    saved: Macros<'a>,
}

impl<'a> Stores<'a> {
    pub fn read(volatile: &'a [u8], saved: &'a [u8]) -> Result<Stores<'a>, Refusal> {
        Ok(Stores {
            volatile: macros_of(volatile).ok_or(Refusal::StoreMalformed)?,
            saved: macros_of(saved).ok_or(Refusal::StoreMalformed)?,
        })
    }

    /// The body, "as part of the volatile store if it is there, otherwise as part of the saved store".
    pub fn find(&self, number: i32) -> Result<&'a [u8], Refusal> {
        let number = check_number(number)?;
        let body = self.volatile.get(&number).or(self.saved.get(&number));
        body.copied().ok_or(Refusal::NoSuchMacro)
    }
}

/// The refusal is what the companion answer says: "12, 8 or 14 in that order".
pub fn find<'a>(volatile: &'a [u8], saved: &'a [u8], number: i32) -> Result<&'a [u8], Refusal> {
    Stores::read(volatile, saved)?.find(number)
}

#[cfg(test)]
mod tests {
    use super::*;

    #[test]
    fn the_sheet_has_macro_5_in_eight_bytes() {
        let mut store = [0; 8];
        assert_eq!(define(&mut store, 5, &[72, 105]), Ok(()));
        assert_eq!(store, [0, 10, 2, 72, 105, 0, 0, 0]);
        let six_more = define(&mut store, 6, &[1, 2, 3]);
        assert_eq!(six_more, Err(Refusal::StoreTooShort));
        assert_eq!(store, [0, 10, 2, 72, 105, 0, 0, 0]);
    }

    #[test]
    fn entries_stand_in_rising_number_and_the_last_fills_the_store() {
        let mut store = [0; 14];
        for (number, entry) in [(32767, 1), (0, 2), (128, 3)] {
            assert_eq!(define(&mut store, number, &[entry]), Ok(()));
        }
        assert_eq!(store, [0, 0, 1, 2, 1, 0, 1, 3, 255, 254, 1, 1, 0, 0]);
        assert_eq!(define(&mut store, 128, &[4, 5, 6]), Ok(()));
        assert_eq!(store, [0, 0, 1, 2, 1, 0, 3, 4, 5, 6, 255, 254, 1, 1]);
        assert_eq!(define(&mut store, 0, &[]), Ok(()));
        assert_eq!(store, [1, 0, 3, 4, 5, 6, 255, 254, 1, 1, 0, 0, 0, 0]);
        assert_eq!(define(&mut store, 7, &[]), Ok(()));
        assert_eq!(store, [1, 0, 3, 4, 5, 6, 255, 254, 1, 1, 0, 0, 0, 0]);
    }

    #[test]
    fn all_room_freed_by_the_old_body_counts() {
        let mut store = [0, 0, 2, 7, 7];
        assert_eq!(define(&mut store, 0, &[8, 8]), Ok(()));
        assert_eq!(store, [0, 0, 2, 8, 8]);
        let longer = define(&mut store, 0, &[8, 8, 8]);
        assert_eq!(longer, Err(Refusal::StoreTooShort));
        assert_eq!(store, [0, 0, 2, 8, 8]);
    }

    #[test]
    fn a_body_of_256() {
        let mut store = [9; 259];
        store.fill(0);
        assert_eq!(define(&mut store, 1, &[127; 256]), Ok(()));
        assert_eq!(store[..4], [0, 3, 0, 127]);
        assert_eq!(find(&store, &[], 1), Ok(&[127; 256][..]));
        let too_many = define(&mut store, 1, &[127; 257]);
        assert_eq!(too_many, Err(Refusal::NotValid));
    }

    #[test]
    fn malformed_stores() {
        for store in [
            &[1][..],
            &[0, 2],
            &[0, 2, 1],
            &[0, 0, 2, 1],
            &[0, 2, 0, 0],
            &[0, 0, 1, 128],
            &[0, 0, 1, 5, 0, 0, 1, 5],
            &[0, 2, 1, 5, 0, 0, 1, 5],
            &[0, 0, 1, 5, 0, 0, 0, 1],
        ] {
            assert!(!is_well_formed(store), "{store:?}");
            let answer = define(&mut store.to_vec(), -1, &[]);
            assert_eq!(answer, Err(Refusal::StoreMalformed));
            assert_eq!(find(store, &[], -1), Err(Refusal::StoreMalformed));
            assert_eq!(find(&[], store, -1), Err(Refusal::StoreMalformed));
        }
        let mut of_257 = vec![5; 260];
        of_257[..HEADER].copy_from_slice(&[0, 1, 1]);
        assert!(!is_well_formed(&of_257));
    }

    #[test]
    fn well_formed_stores() {
        for store in [
            &[][..],
            &[0],
            &[0; 9],
            &[0, 0, 1, 0],
            &[0, 0, 1, 5, 0, 2, 1, 5],
        ] {
            assert!(is_well_formed(store), "{store:?}");
        }
    }

    #[test]
    fn values_are_refused_before_the_room() {
        for number in [-1, 32768, 65541, i32::MIN, i32::MAX] {
            assert_eq!(define(&mut [], number, &[1]), Err(Refusal::NotValid));
            assert_eq!(find(&[], &[], number), Err(Refusal::NotValid));
        }
        for entry in [-1, 128, 256, i32::MIN, i32::MAX] {
            assert_eq!(define(&mut [], 1, &[0, entry]), Err(Refusal::NotValid));
        }
        assert_eq!(define(&mut [], 1, &[0]), Err(Refusal::StoreTooShort));
    }

    #[test]
    fn the_volatile_store_is_looked_at_first() {
        let volatile = [0, 0, 1, 5];
        let saved = [0, 0, 1, 6, 0, 2, 1, 7];
        assert_eq!(find(&volatile, &saved, 0), Ok(&[5][..]));
        assert_eq!(find(&volatile, &saved, 1), Ok(&[7][..]));
        assert_eq!(find(&volatile, &saved, 2), Err(Refusal::NoSuchMacro));
    }
}
