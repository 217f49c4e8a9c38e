//! A macro store: defining, and looking up.

use super::integers::MOST_ENTRIES;
use super::refusals::Refusal;
use std::ops::Range;

const HEADER: usize = 3;

/// An entry: its macro's number, and where its body stands.
struct Entry {
    number: usize,
    body: Range<usize>,
}

#[derive(Clone, Copy, Debug, PartialEq, Eq)]
pub enum Store {
    Volatile,
    Saved,
}

/// The entry whose header stands at `at`, if one does. Its body may go on past the end, or hold what none may.
fn entry_at(store: &[u8], at: usize) -> Option<Entry> {
    let header = store.get(at..at + HEADER)?;
    let packed =
        usize::from(header[0]) << 16 | usize::from(header[1]) << 8 | usize::from(header[2]);
    let length = packed & 511;
    if length == 0 {
        return None;
    }
    let from = at + HEADER;
    Some(Entry {
        number: packed >> 9,
        body: from..from + length,
    })
}

/// Where the entries end, or 12.
fn check(store: &[u8]) -> Result<usize, Refusal> {
    let mut at = 0;
    let mut least = 0;
    while let Some(entry) = entry_at(store, at) {
        let body = store
            .get(entry.body.clone())
            .ok_or(Refusal::StoreMalformed)?;
        let allowed = body.len() <= MOST_ENTRIES && body.iter().all(|&byte| byte <= 127);
        if entry.number < least || !allowed {
            return Err(Refusal::StoreMalformed);
        }
        least = entry.number + 1;
        at = entry.body.end;
    }
    if store[at..].iter().any(|&byte| byte != 0) {
        return Err(Refusal::StoreMalformed);
    }
    Ok(at)
}

/// 12 for either store.
pub fn check_both(volatile: &[u8], saved: &[u8]) -> Result<(), Refusal> {
    check(volatile)?;
    check(saved)?;
    Ok(())
}

pub fn macro_number(number: i32) -> Result<usize, Refusal> {
    if !(0..=32767).contains(&number) {
        return Err(Refusal::NotValid);
    }
    Ok(number as usize)
}

/// Where the body of a macro stands in a store that is well formed, from header to header.
fn find(store: &[u8], number: usize) -> Option<Range<usize>> {
    let mut at = 0;
    while let Some(entry) = entry_at(store, at) {
        if entry.number >= number {
            return (entry.number == number).then_some(entry.body);
        }
        at = entry.body.end;
    }
    None
}

/// The body of a macro in either of two stores that are well formed.
pub fn find_in_either(
    volatile: &[u8],
    saved: &[u8],
    number: usize,
) -> Option<(Store, Range<usize>)> {
    match find(volatile, number) {
        Some(body) => Some((Store::Volatile, body)),
        None => find(saved, number).map(|body| (Store::Saved, body)),
    }
}

/// Which store holds the body of a macro, and where: 12, 8, 14.
pub fn look_up(
    volatile: &[u8],
    saved: &[u8],
    number: i32,
) -> Result<(Store, Range<usize>), Refusal> {
    check_both(volatile, saved)?;
    let number = macro_number(number)?;
    find_in_either(volatile, saved, number).ok_or(Refusal::NoSuchMacro)
}

/// KD and KO: sets, replaces or, with no contents, deletes a macro: 12, 8, 13.
pub fn define(store: &mut [u8], number: i32, contents: &[i32]) -> Result<(), Refusal> {
    let end = check(store)?;
    let number = macro_number(number)?;
    let allowed = contents.iter().all(|&byte| (0..=127).contains(&byte));
    if contents.len() > MOST_ENTRIES || !allowed {
        return Err(Refusal::NotValid);
    }
    let entry = entry_of(store, number);
    let size = match contents.len() {
        0 => 0,
        length => HEADER + length,
    };
    let new_end = end - entry.len() + size;
    if new_end > store.len() {
        return Err(Refusal::StoreTooShort);
    }
    store.copy_within(entry.end..end, entry.start + size);
    write_entry(
        &mut store[entry.start..entry.start + size],
        number,
        contents,
    );
    if new_end < end {
        store[new_end..end].fill(0);
    }
    Ok(())
}

/// The entry of a macro in a store that is well formed; an empty range where it would stand.
fn entry_of(store: &[u8], number: usize) -> Range<usize> {
    let mut at = 0;
    while let Some(entry) = entry_at(store, at) {
        if entry.number == number {
            return at..entry.body.end;
        }
        if entry.number > number {
            break;
        }
        at = entry.body.end;
    }
    at..at
}

fn write_entry(place: &mut [u8], number: usize, contents: &[i32]) {
    if contents.is_empty() {
        return;
    }
    let packed = number << 9 | contents.len();
    let header = [(packed >> 16) as u8, (packed >> 8) as u8, packed as u8];
    place[..HEADER].copy_from_slice(&header);
    for (byte, &value) in place[HEADER..].iter_mut().zip(contents) {
        *byte = value as u8;
    }
}

#[cfg(test)]
mod tests {
    use super::*;

    #[test]
    fn the_store_of_the_sheet() {
        let mut store = [0; 8];
        assert_eq!(define(&mut store, 5, &[72, 105]), Ok(()));
        assert_eq!(store, [0, 10, 2, 72, 105, 0, 0, 0]);
        let six_more = define(&mut store, 6, &[1, 2, 3]);
        assert_eq!(six_more, Err(Refusal::StoreTooShort));
        assert_eq!(define(&mut store, 5, &[1, 2, 3, 4, 5]), Ok(()));
        assert_eq!(store, [0, 10, 5, 1, 2, 3, 4, 5]);
        assert_eq!(define(&mut store, 4, &[]), Ok(()));
        assert_eq!(define(&mut store, 5, &[]), Ok(()));
        assert_eq!(store, [0; 8]);
    }

    #[test]
    fn looking_up_says_the_store_and_the_place() {
        let volatile = [0, 10, 2, 72, 105, 0, 0, 0];
        let saved = [0, 10, 1, 1, 0, 12, 1, 65];
        let found = |number| look_up(&volatile, &saved, number);
        assert_eq!(found(5), Ok((Store::Volatile, 3..5)));
        assert_eq!(found(6), Ok((Store::Saved, 7..8)));
        assert_eq!(found(7), Err(Refusal::NoSuchMacro));
        assert_eq!(found(-1), Err(Refusal::NotValid));
        let swapped = [0, 12, 1, 65, 0, 10, 1, 1];
        let malformed = look_up(&volatile, &swapped, -1);
        assert_eq!(malformed, Err(Refusal::StoreMalformed));
    }
}
