//! The picture of docs/COMPARISON.md in six ways. Behind its last write every place of the surface is looked at.

use std::fmt;

use super::calls::{Call, What};
use super::sequence::Sequence;
use super::side::Side;
use crate::compare::case::{same, Case, Difference};
use crate::compare::fence::Fenced;
use crate::compare::tally::Row;
use crate::picture::colours;

const W: usize = 480;
const H: usize = 360;

/// Each way by its name in the table.
pub const WAYS: [&str; 6] = [
    "picture by RP",
    "picture by RL",
    "picture by RP in odd cuts",
    "picture by RL in short runs",
    "picture by both in turns",
    "picture in a viewport",
];

/// Corners, as RS takes them, and a place that is none of them, for RH.
const CORNERS: [i32; 4] = [317, 41, 106, 163];
const PLACE: [i32; 2] = [250, 100];

#[derive(Clone)]
pub struct Picture {
    name: &'static str,
    sequence: Sequence,
    expected: Fenced<u8>,
}

/// What a write takes from the front of the colours that are left.
enum Cut {
    Raster { colours: usize },
    Runs { codes: usize, longest: usize },
}

/// Where the colours go: the viewport, in columns and rows from the upper left, and how many places the first of them is behind its
/// upper left.
struct View {
    left: usize,
    above: usize,
    width: usize,
    height: usize,
    first: usize,
}

pub fn picture(number: u64) -> Picture {
    let way = number as usize;
    let in_viewport = way == 5;
    let colours = colours(W, H);
    Picture {
        name: WAYS[way],
        sequence: Sequence {
            record: [0; 7],
            calls: calls(way, &colours, in_viewport)
                .into_iter()
                .map(call)
                .collect(),
        },
        expected: expected(&colours, &view(in_viewport)),
    }
}

fn view(in_viewport: bool) -> View {
    let [right, bottom, left, top] = match in_viewport {
        true => CORNERS.map(|corner| corner as usize),
        false => [W - 1, 0, 0, H - 1],
    };
    let [x, y] = match in_viewport {
        true => PLACE.map(|place| place as usize),
        false => [left, top],
    };
    let width = right - left + 1;
    View {
        left,
        above: H - 1 - top,
        width,
        height: top - bottom + 1,
        first: (top - y) * width + (x - left),
    }
}

/// Reckoned place by place, with no record that moves.
fn expected(colours: &[u8], view: &View) -> Fenced<u8> {
    let mut surface = Side::before([0; 7], W * H).surface;
    for (number, &colour) in (view.first..).zip(colours) {
        let place = number % (view.width * view.height);
        let (column, row) = (place % view.width, place / view.width);
        surface.lent()[(view.above + row) * W + view.left + column] = colour;
    }
    surface
}

/// The settings, then writes until all colours are given. RU goes before a write with other bits.
fn calls(way: usize, colours: &[u8], in_viewport: bool) -> Vec<What> {
    let mut calls = vec![What::Fresh];
    if in_viewport {
        calls.extend([What::Viewport(CORNERS), What::Beam(PLACE)]);
    }
    let mut bits = 0;
    let mut left = colours;
    for k in 0.. {
        if left.is_empty() {
            break;
        }
        let (bits_of_write, cut) = write(way, k);
        if bits_of_write != bits {
            bits = bits_of_write;
            calls.push(What::Bits([1, 11, bits]));
        }
        let (what, taken) = cut_from(left, bits, cut);
        calls.push(what);
        left = &left[taken..];
    }
    calls
}

/// The bits of write k of a way, and what it takes.
fn write(way: usize, k: usize) -> (i32, Cut) {
    let raster = |colours| Cut::Raster { colours };
    let runs = |codes, longest| Cut::Runs { codes, longest };
    match way {
        0 => (3, raster(512)),
        1 => (3, runs(256, 4095)),
        2 => (3, raster([1, 7, 64, 511, 13, 480][k % 6])),
        3 => (3, runs([1, 256, 3, 100, 17][k % 5], 5)),
        _ => {
            let bits = [3, 3, 6, 6][k % 4];
            let entry = k / 2 % 5;
            match k % 2 {
                0 => (bits, raster([7, 64, 255, 1, 200][entry])),
                _ => (bits, runs([20, 1, 256, 3, 100][entry], 500)),
            }
        }
    }
}

/// The write, and how many colours it took.
fn cut_from(colours: &[u8], bits: i32, cut: Cut) -> (What, usize) {
    match cut {
        Cut::Raster { colours: most } => {
            let taken = most.min(colours.len());
            let characters = characters_of(&colours[..taken], bits);
            let n = taken as i32;
            (What::Raster { n, characters }, taken)
        }
        Cut::Runs { codes, longest } => {
            let (codes, taken) = codes_of(colours, bits, codes, longest);
            (What::Runs { codes }, taken)
        }
    }
}

/// The spare low bits of the last character are ones.
fn characters_of(colours: &[u8], bits: i32) -> Vec<i32> {
    let in_character = 6 / bits as usize;
    let character = |chunk: &[u8]| {
        let mut packed = 0;
        for place in 0..in_character {
            let colour = chunk.get(place).map_or((1 << bits) - 1, |&c| i32::from(c));
            packed = packed << bits | colour;
        }
        32 + packed
    };
    colours.chunks(in_character).map(character).collect()
}

/// Each code is the longest run that comes next, and no longer than it may be. How many colours they take is told too.
fn codes_of(colours: &[u8], bits: i32, most: usize, longest: usize) -> (Vec<i32>, usize) {
    let runs = colours.chunk_by(|one, next| one == next);
    let runs = runs.flat_map(|run| run.chunks(longest));
    let runs: Vec<&[u8]> = runs.take(most).collect();
    let code = |run: &&[u8]| ((run.len() as i32) << bits) + i32::from(run[0]);
    let taken = runs.iter().map(|run| run.len()).sum();
    (runs.iter().map(code).collect(), taken)
}

fn call(what: What) -> Call {
    Call {
        w: W,
        h: H,
        lent: W * H,
        spoiled: None,
        what,
    }
}

impl Case for Picture {
    fn run(&self, row: &mut Row) -> Result<(), Difference> {
        let drawn = self.sequence.carried_out(row)?;
        let behind = || {
            format!(
                "behind {}; the second line is the picture itself",
                self.name
            )
        };
        same(behind, &drawn.surface, &self.expected)?;
        row.meet(self.name);
        Ok(())
    }

    /// What differs here differs on smaller surfaces too: the kind `surfaces` finds it.
    fn smaller(&self) -> Vec<Picture> {
        vec![]
    }
}

impl fmt::Display for Picture {
    fn fmt(&self, text: &mut fmt::Formatter) -> fmt::Result {
        write!(text, "The {}. {}", self.name, self.sequence)
    }
}

#[cfg(test)]
mod tests {
    use super::*;

    #[test]
    fn spare_bits_are_ones() {
        assert_eq!(characters_of(&[1, 2, 3, 4], 3), [42, 60]);
        assert_eq!(characters_of(&[1, 2, 3], 3), [42, 32 + 24 + 7]);
        assert_eq!(characters_of(&[1, 2], 6), [33, 34]);
    }

    #[test]
    fn runs_are_cut_at_the_longest_and_at_the_end() {
        let colours = [5, 5, 5, 2, 2, 7];
        let codes = [2 * 8 + 5, 8 + 5, 2 * 8 + 2, 8 + 7];
        assert_eq!(codes_of(&colours, 3, 9, 2), (codes.to_vec(), 6));
        assert_eq!(codes_of(&colours, 3, 3, 2), (codes[..3].to_vec(), 5));
        assert_eq!(codes_of(&colours, 6, 1, 4095), (vec![3 * 64 + 5], 3));
    }

    #[test]
    fn the_whole_surface_is_the_picture_and_a_viewport_a_part_of_it() {
        let whole = expected(&colours(W, H), &view(false));
        assert_eq!(whole, Fenced::holding(&colours(W, H)));
        let mut part = expected(&colours(W, H), &view(true));
        let touched = part.lent().iter().filter(|&&byte| byte < 8).count();
        assert_eq!(touched, 212 * 123);
    }

    #[test]
    fn every_way_is_drawn_with_nothing_refused() {
        for number in 0..6 {
            let mut row = Row::default();
            let picture = picture(number);
            assert!(picture.run(&mut row).is_ok(), "{}", picture.name);
            let shown = row.to_string();
            assert!(shown.contains(picture.name) && !shown.contains("] 0 ["));
        }
        assert_eq!(picture(0).sequence.calls.len(), 2 + 338);
    }
}
