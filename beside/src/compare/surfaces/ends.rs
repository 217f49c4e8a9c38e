//! What the ends of row of a raster write met, for the table.

use super::calls::{What, END_OF_ROW};

const ANY: &str = "96";
const FIRST: &str = "96 first";
const LAST: &str = "96 last";
const TWICE: &str = "96 twice running";
const NO_PIXELS: &str = "96 and no pixels";
const FULL_LIST: &str = "96 among 256";
const ONE_WIDE: &str = "96 in a viewport one wide";
const ONE_HIGH: &str = "96 in a viewport one high";
const LEFT_EDGE: &str = "96 from a left edge";
const ROUND: &str = "96 round to the top";
const PART: &str = "96 behind a part of a character";
const SURPLUS: &str = "96 behind surplus pixels";

pub const MET: [&str; 12] = [
    ANY, FIRST, LAST, TWICE, NO_PIXELS, FULL_LIST, ONE_WIDE, ONE_HIGH, LEFT_EDGE, ROUND, PART,
    SURPLUS,
];

/// Of a call that was done, from the record before it. Each thing is named once, however often the call met it.
pub fn met(what: &What, record: [usize; 7]) -> Vec<&'static str> {
    let What::Raster { n, characters } = what else {
        return vec![];
    };
    if !characters.contains(&END_OF_ROW) {
        return vec![];
    }
    let mut met = at_first_sight(*n, characters, record);
    met.extend(on_the_way(*n, characters, record));
    met.sort();
    met.dedup();
    met
}

fn at_first_sight(n: i32, characters: &[i32], record: [usize; 7]) -> Vec<&'static str> {
    let [_, left, bottom, right, top, ..] = record;
    let is_end = |character: Option<&i32>| character == Some(&END_OF_ROW);
    let sights = [
        (ANY, true),
        (FIRST, is_end(characters.first())),
        (LAST, is_end(characters.last())),
        (
            TWICE,
            characters.windows(2).any(|pair| pair == [END_OF_ROW; 2]),
        ),
        (NO_PIXELS, n == 0),
        (FULL_LIST, characters.len() == 256),
        (ONE_WIDE, left == right),
        (ONE_HIGH, bottom == top),
    ];
    let seen = sights.into_iter().filter(|&(_, is_seen)| is_seen);
    seen.map(|(name, _)| name).collect()
}

/// Where the beam stands at each end of row. Rows and columns are those of the viewport, from its upper left.
fn on_the_way(n: i32, characters: &[i32], record: [usize; 7]) -> Vec<&'static str> {
    let [bits, left, bottom, right, top, x, y] = record;
    let (width, height) = (right - left + 1, top - bottom + 1);
    let (mut column, mut row) = (x - left, top - y);
    let mut unnamed = n as usize;
    let mut before = None;
    let mut met = Vec::new();
    for &character in characters {
        if character == END_OF_ROW {
            met.extend(before.take());
            met.extend((column == 0).then_some(LEFT_EDGE));
            met.extend((row + 1 == height).then_some(ROUND));
            (column, row) = (0, (row + 1) % height);
            continue;
        }
        let named = unnamed.min(6 / bits);
        unnamed -= named;
        column += named;
        before = match () {
            () if named < 6 / bits => Some(PART),
            () if column > width => Some(SURPLUS),
            () => None,
        };
        (column, row) = (column % width, (row + column / width) % height);
    }
    met
}

#[cfg(test)]
mod tests {
    use super::*;

    /// Four by three, three bits, from the upper left.
    const WHOLE: [usize; 7] = [3, 0, 0, 3, 2, 0, 2];

    fn seen(n: i32, characters: &[i32], record: [usize; 7]) -> Vec<&'static str> {
        let characters = characters.to_vec();
        met(&What::Raster { n, characters }, record)
    }

    #[test]
    fn without_an_end_of_row_nothing_is_met() {
        assert!(seen(2, &[42], WHOLE).is_empty());
        assert!(met(&What::Step, WHOLE).is_empty());
        assert!(met(&What::Runs { codes: vec![96] }, WHOLE).is_empty());
    }

    #[test]
    fn where_it_stands_in_the_list() {
        assert_eq!(seen(4, &[42, 96, 42], WHOLE), [ANY]);
        assert_eq!(seen(4, &[96, 42, 42], WHOLE), [ANY, FIRST, LEFT_EDGE]);
        assert_eq!(seen(2, &[42, 96], WHOLE), [ANY, LAST]);
        let twice = [ANY, LEFT_EDGE, TWICE];
        assert_eq!(seen(4, &[42, 96, 96, 42], WHOLE), twice);
        let alone = [ANY, NO_PIXELS, FIRST, LEFT_EDGE, LAST];
        assert_eq!(seen(0, &[96], WHOLE), alone);
        assert!(seen(0, &[96; 256], WHOLE).contains(&FULL_LIST));
    }

    #[test]
    fn where_the_beam_stands() {
        let last_row = [3, 0, 0, 3, 2, 1, 0];
        assert_eq!(seen(4, &[42, 96, 42], last_row), [ANY, ROUND]);
        // The second character fills the row, and the beam goes to the left edge by itself.
        let full = [ANY, LEFT_EDGE];
        assert_eq!(seen(6, &[42, 42, 96, 42], WHOLE), full);
        let column_3 = [3, 0, 0, 3, 2, 3, 2];
        assert_eq!(seen(4, &[42, 96, 42], column_3), [ANY, SURPLUS]);
        assert_eq!(seen(1, &[42, 96], WHOLE), [ANY, PART, LAST]);
        let one_wide = [6, 1, 0, 1, 2, 1, 2];
        let wide = [ANY, LEFT_EDGE, ONE_WIDE];
        assert_eq!(seen(2, &[33, 96, 33], one_wide), wide);
        let one_high = [6, 0, 1, 3, 1, 2, 1];
        let high = [ANY, ONE_HIGH, ROUND];
        assert_eq!(seen(2, &[33, 96, 33], one_high), high);
    }
}
