//! The sequences of calls that are compared.

use second::record::Size;

use super::calls::{Call, What, END_OF_ROW};
use super::sequence::Sequence;
use super::side::{record_of, Side};
use crate::compare::draws::Draws;

const WRONG_SIDES: [usize; 6] = [0, 513, 514, 65536, 1 << 32, usize::MAX];
const ODD_FIELDS: [usize; 12] = [0, 1, 2, 3, 4, 5, 6, 7, 511, 512, 65536, usize::MAX];
const ODD_NUMBERS: [i32; 12] = [
    -1,
    0,
    1,
    511,
    512,
    4095,
    32767,
    32768,
    -32768,
    65536,
    i32::MIN,
    i32::MAX,
];
const ODD_ENTRIES: [i32; 11] = [-1, 0, 31, 32, 95, 96, 97, 32767, 32768, i32::MIN, i32::MAX];
const ODD_BITS: [i32; 8] = [-1, 0, 4, 5, 7, 8, 65, i32::MIN];

/// Settings alone.
pub fn beam_records(draws: &mut Draws) -> Sequence {
    sequence(draws, draw_setting)
}

/// Settings and writes of pixels.
pub fn surfaces(draws: &mut Draws) -> Sequence {
    sequence(draws, |draws, size, record| match draws.below(3) {
        0 => draw_setting(draws, size, record),
        1 => draw_raster(draws, record[0]),
        _ => draw_runs(draws, record[0]),
    })
}

type DrawWhat = fn(&mut Draws, Size, [usize; 7]) -> What;

fn sequence(draws: &mut Draws, draw_what: DrawWhat) -> Sequence {
    let size = draw_size(draws);
    let first = draw_record(draws, size);
    // The second program's record goes along, so that calls fit what was set before.
    let mut along = Side::before(first, 0);
    let length = match draws.below(8) {
        0 => 1 + draws.below(40),
        _ => 1 + draws.below(8),
    };
    let mut calls = Vec::new();
    for _ in 0..length {
        let what = draw_what(draws, size, along.record);
        let call = draw_call(draws, size, what);
        if let Some((field, value)) = call.spoiled {
            along.record[field] = value;
        }
        if !matches!(call.what, What::Raster { .. } | What::Runs { .. }) {
            along.by_second(&Call {
                lent: 0,
                ..call.clone()
            });
        }
        calls.push(call);
    }
    Sequence {
        record: first,
        calls,
    }
}

fn draw_size(draws: &mut Draws) -> Size {
    let small = |draws: &mut Draws| 1 + draws.below(12);
    match draws.below(256) {
        0 => Size {
            w: 1 + draws.below(512),
            h: 1 + draws.below(512),
        },
        1..=4 => Size {
            w: 512 - draws.below(2),
            h: small(draws),
        },
        5..=8 => Size {
            w: small(draws),
            h: 512 - draws.below(2),
        },
        9..=40 => Size {
            w: 1 + draws.below(60),
            h: 1 + draws.below(60),
        },
        _ => Size {
            w: small(draws),
            h: small(draws),
        },
    }
}

/// Mostly one that is valid, its bits mostly set.
fn draw_record(draws: &mut Draws, size: Size) -> [usize; 7] {
    let mut ends = |side: usize| {
        let one = draws.below(side);
        let other = draws.below(side);
        let (first, last) = (one.min(other), one.max(other));
        (first, last, first + draws.below(last - first + 1))
    };
    let (left, right, x) = ends(size.w);
    let (bottom, top, y) = ends(size.h);
    let bits = draws.one_of(&[0, 1, 1, 2, 2, 3, 3, 6]);
    let mut record = [bits, left, bottom, right, top, x, y];
    if draws.one_in(16) {
        record[draws.below(7)] = draws.one_of(&ODD_FIELDS);
    }
    record
}

/// The call on the sequence's surface, or with one or two things wrong about size and record.
fn draw_call(draws: &mut Draws, size: Size, what: What) -> Call {
    let mut call = Call {
        w: size.w,
        h: size.h,
        lent: size.w * size.h,
        spoiled: None,
        what,
    };
    for _ in 0..2 {
        match draws.below(48) {
            0 => call.w = draws.one_of(&WRONG_SIDES),
            1 => call.h = draws.one_of(&WRONG_SIDES),
            2 => call.lent = call.lent.saturating_sub(1),
            3 => call.lent += draws.below(3),
            4 => (call.w, call.h) = (call.h, call.w),
            5 => call.spoiled = Some((draws.below(7), draws.one_of(&ODD_FIELDS))),
            _ => {}
        }
    }
    call
}

fn draw_setting(draws: &mut Draws, size: Size, record: [usize; 7]) -> What {
    let is_odd = draws.one_in(6);
    match draws.below(10) {
        0 => What::Fresh,
        1..=2 => draw_bits(draws, is_odd),
        3..=4 => draw_viewport(draws, size, is_odd),
        5..=6 => draw_beam(draws, size, record, is_odd),
        _ => What::Step,
    }
}

fn draw_bits(draws: &mut Draws, is_odd: bool) -> What {
    let third = match is_odd {
        true => draws.one_of(&ODD_BITS),
        false => draws.one_of(&[1, 2, 3, 6]),
    };
    What::Bits([draws.any_integer(), draws.any_integer(), third])
}

fn draw_viewport(draws: &mut Draws, size: Size, is_odd: bool) -> What {
    let mut corners = [size.w, size.h, size.w, size.h].map(|side| draws.below(side) as i32);
    if is_odd {
        let edge = [size.w, size.h, size.w, size.h];
        let place = draws.below(4);
        corners[place] = draw_odd(draws, edge[place]);
    }
    What::Viewport(corners)
}

/// Inside the viewport where there is one.
fn draw_beam(draws: &mut Draws, size: Size, record: [usize; 7], is_odd: bool) -> What {
    let [_, left, bottom, right, top, ..] = record;
    let mut to = match record_of(record).check(size) {
        Ok(()) => [
            draws.between(left as i32, right as i32),
            draws.between(bottom as i32, top as i32),
        ],
        Err(_) => [draws.below(size.w) as i32, draws.below(size.h) as i32],
    };
    if is_odd {
        let place = draws.below(2);
        to[place] = draw_odd(draws, [size.w, size.h][place]);
    }
    What::Beam(to)
}

/// One place past the edge, or another odd number.
fn draw_odd(draws: &mut Draws, edge: usize) -> i32 {
    match draws.below(3) {
        0 => edge as i32,
        _ => draws.one_of(&ODD_NUMBERS),
    }
}

fn draw_raster(draws: &mut Draws, bits: usize) -> What {
    let in_character = if matches!(bits, 1 | 2 | 3 | 6) {
        6 / bits
    } else {
        1 + draws.below(6)
    };
    let n = match draws.below(32) {
        0 => 256 * in_character - draws.below(in_character),
        1 => draws.below(256 * in_character),
        _ => draws.below(20),
    };
    let count = n.div_ceil(in_character);
    let mut n = n as i32;
    let mut characters: Vec<i32> = (0..count).map(|_| draws.between(32, 95)).collect();
    if draws.one_in(2) {
        put_ends_of_row(draws, &mut characters);
    }
    for _ in 0..2 {
        match draws.below(40) {
            0 => n = draws.one_of(&ODD_NUMBERS),
            1 => n = (n - 1).max(0),
            2 => n += draws.between(1, 6),
            3 => spoil_list(draws, &mut characters),
            4 => drop(characters.pop()),
            // As if N needed the ends of row too.
            5 => n = (characters.len() * in_character) as i32,
            _ => {}
        }
    }
    What::Raster { n, characters }
}

/// Some anywhere; now and then as many as a list can have, or about that.
fn put_ends_of_row(draws: &mut Draws, characters: &mut Vec<i32>) {
    let ends = match draws.below(64) {
        0 => (254 + draws.below(4)).saturating_sub(characters.len()),
        _ => 1 + draws.below(4),
    };
    for _ in 0..ends {
        let place = draws.below(characters.len() + 1);
        characters.insert(place, END_OF_ROW);
    }
}

fn draw_runs(draws: &mut Draws, bits: usize) -> What {
    let colours = 1 << bits.min(6);
    let count = match draws.below(64) {
        0 => 255 + draws.below(2),
        _ => draws.below(8),
    };
    let mut codes: Vec<i32> = (0..count)
        .map(|_| match draws.below(64) {
            0 => draws.between(0, 32767),
            1..=8 => draws.between(0, colours - 1),
            _ => draws.between(0, 12 * colours),
        })
        .collect();
    if draws.one_in(16) {
        spoil_list(draws, &mut codes);
    }
    What::Runs { codes }
}

fn spoil_list(draws: &mut Draws, list: &mut Vec<i32>) {
    match draws.below(4) {
        0 => list.resize(draws.one_of(&[256, 257, 258, 300]), 33),
        1 => list.push(33),
        _ if list.is_empty() => {}
        _ => {
            let place = draws.below(list.len());
            list[place] = draws.one_of(&ODD_ENTRIES);
        }
    }
}
