//! The stores that are lent.

use std::collections::BTreeMap;

use second::store::append_entry;

use crate::compare::draws::Draws;

/// Few enough to meet again, with both ends and every byte of a header in use.
pub const NUMBERS: [i32; 12] = [0, 1, 2, 3, 127, 128, 255, 256, 1023, 16384, 32766, 32767];
pub const OUTSIDE: [i32; 6] = [-1, 32768, -32768, 65536, i32::MIN, i32::MAX];

/// The entries in rising number, and zeros behind them.
pub fn store_of(macros: &BTreeMap<i32, Vec<u8>>, more: usize) -> Vec<u8> {
    let mut store = Vec::new();
    for (&number, body) in macros {
        append_entry(&mut store, number as u32, body);
    }
    store.resize(store.len() + more, 0);
    store
}

/// A well-formed store of some entries, full or with room.
pub fn draw_store(draws: &mut Draws) -> Vec<u8> {
    let mut macros = BTreeMap::new();
    for _ in 0..draws.below(6) {
        let number = draws.one_of(&NUMBERS);
        let length = draw_length(draws);
        macros.insert(
            number,
            (0..length).map(|_| draws.below(128) as u8).collect(),
        );
    }
    let more = match draws.below(8) {
        0..=2 => 0,
        3..=5 => draws.below(12),
        6 => draws.below(300),
        _ => draws.below(2000),
    };
    store_of(&macros, more)
}

fn draw_length(draws: &mut Draws) -> usize {
    match draws.below(48) {
        0 => 256 - draws.below(2),
        1 => 1 + draws.below(256),
        _ => 1 + draws.below(8),
    }
}

/// Changes that mostly make it malformed.
pub fn spoil_store(draws: &mut Draws, store: &mut Vec<u8>) {
    let place = draws.below(store.len().max(1));
    match draws.below(6) {
        0 if !store.is_empty() => store[place] = draws.byte(),
        1 if !store.is_empty() => store[place] ^= 1 << draws.below(8),
        2 if !store.is_empty() => {
            store.remove(place);
        }
        3 => append_entry(store, draws.one_of(&NUMBERS) as u32, &[65]),
        // A body of 257, and one of none.
        4 => append_entry(store, 32767, &[65; 257]),
        _ => append_entry(store, 32767, &[]),
    }
}
