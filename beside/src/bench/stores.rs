//! Stores that are full of macros.

use second::draws::Draws;

pub const LARGEST: usize = 1 << 16;
const LONGEST_BODY: u32 = 60;

/// A full store: macros with numbers `first`, `first` + 2 and so on, their bodies of 1 to 60 bytes. How many there are is told too.
pub fn full_store(length: usize, first: i32) -> (Vec<u8>, i32) {
    let mut draws = Draws::starting_with(4);
    let mut store = Vec::new();
    let mut count = 0;
    loop {
        let number = first + 2 * count;
        let long = 1 + draws.draw_from(LONGEST_BODY);
        let entry = entry(number, (0..long).map(|_| draws.draw_from(26) as u8 + b'A'));
        if store.len() + entry.len() > length {
            break;
        }
        store.extend(entry);
        count += 1;
    }
    store.resize(length, 0);
    (store, count)
}

fn entry(number: i32, body: impl Iterator<Item = u8>) -> Vec<u8> {
    let body: Vec<u8> = body.collect();
    let packed = (number as u32) << 9 | body.len() as u32;
    let mut entry = packed.to_be_bytes()[1..].to_vec();
    entry.extend(body);
    entry
}
