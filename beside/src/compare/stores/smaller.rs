//! Stores made smaller entry by entry: a byte left out anywhere else would mostly make them malformed.

use second::store::append_entry;

use crate::compare::shrinking::{lesser, lower, shorter, with_each};

const HEADER: usize = 3;

#[derive(Clone)]
struct Entry {
    number: u32,
    body: Vec<u8>,
}

/// Stores with fewer or shorter entries, with less behind them, and at last with any byte less.
pub fn smaller_stores(store: &[u8]) -> Vec<Vec<u8>> {
    let (entries, rest) = entries_of(store);
    let lists = shorter(&entries).into_iter();
    let mut stores: Vec<Vec<u8>> = lists.map(|entries| encoded(&entries, rest)).collect();
    stores.extend(
        shorter(rest)
            .into_iter()
            .map(|rest| encoded(&entries, &rest)),
    );
    for (place, entry) in entries.iter().enumerate() {
        for smaller in smaller_entries(entry) {
            let mut entries = entries.clone();
            entries[place] = smaller;
            stores.push(encoded(&entries, rest));
        }
    }
    stores.extend(lesser(store));
    stores
}

fn smaller_entries(entry: &Entry) -> Vec<Entry> {
    [
        with_each(entry, lesser(&entry.body), |entry, body| entry.body = body),
        with_each(entry, lower(entry.number), |entry, number| {
            entry.number = number
        }),
    ]
    .concat()
}

/// What reads as entries from the front on, be their numbers rising or not, and the rest.
fn entries_of(store: &[u8]) -> (Vec<Entry>, &[u8]) {
    let mut entries = Vec::new();
    let mut rest = store;
    while let Some((entry, behind)) = first_entry(rest) {
        entries.push(entry);
        rest = behind;
    }
    (entries, rest)
}

fn first_entry(store: &[u8]) -> Option<(Entry, &[u8])> {
    let (header, rest) = store.split_first_chunk::<HEADER>()?;
    let [first, second, third] = header.map(u32::from);
    let length = (second % 2 * 256 + third) as usize;
    if length == 0 || length > rest.len() {
        return None;
    }
    let (body, behind) = rest.split_at(length);
    let entry = Entry {
        number: first * 128 + second / 2,
        body: body.to_vec(),
    };
    Some((entry, behind))
}

fn encoded(entries: &[Entry], rest: &[u8]) -> Vec<u8> {
    let mut store = Vec::new();
    for entry in entries {
        append_entry(&mut store, entry.number, &entry.body);
    }
    store.extend(rest);
    store
}

#[cfg(test)]
mod tests {
    use super::*;

    #[test]
    fn entries_and_bodies_go_one_by_one() {
        let store = [0, 0, 1, 5, 0, 10, 2, 72, 105, 0];
        let stores = smaller_stores(&store);
        for smaller in [
            &[0, 10, 2, 72, 105, 0][..],
            &[0, 0, 1, 5, 0, 10, 2, 72, 105],
            &[0, 0, 1, 5, 0, 10, 1, 105, 0],
            &[0, 0, 1, 5, 0, 8, 2, 72, 105, 0],
            &[0, 0, 5, 0, 10, 2, 72, 105, 0],
        ] {
            assert!(stores.contains(&smaller.to_vec()), "{smaller:?}");
        }
    }

    #[test]
    fn what_is_no_entry_is_the_rest() {
        assert_eq!(entries_of(&[0, 0, 0, 0]).1, [0, 0, 0, 0]);
        let (entries, rest) = entries_of(&[255, 255, 1]);
        assert_eq!((entries.len(), rest), (0, &[255, 255, 1][..]));
    }
}
