//! The expansions that are compared: any macros, cycles, chains to the greatest depth, trees of 1,024 macros.

use std::collections::BTreeMap;

use second::answers::Refusal;
use second::parameters::ESC;
use second::remembered::DelMode;

use super::bodies::{
    call, call_of_number, calls_that_enter, draw_body, draw_text, DEFINED, NUMBERS,
};
use super::expanding::Expansion;
use crate::compare::draws::Draws;
use crate::compare::remembered::{draw_mode, draw_remembered, remembered_from};
use crate::compare::stores::{store_of, Pair, OUTSIDE};

const LONGEST: usize = 256;
const DEEPEST: usize = 8;
const MOST_ENTERED: usize = 1024;
const ABSENT: usize = 14;

/// The bodies by index, and the order of refusals that they were made for.
type Bodies = (Vec<Vec<u8>>, Option<(u8, u8)>);

pub fn expansion(draws: &mut Draws) -> Expansion {
    let mode = draw_mode(draws);
    let (bodies, order) = match draws.below(32) {
        0 => tree(draws, mode),
        1..=8 => chain(draws, mode),
        9..=14 => (any_bodies(draws, true, mode), None),
        _ => (any_bodies(draws, false, mode), None),
    };
    let mut stores = draw_stores(draws, &bodies);
    stores.spoil(draws, 32);
    let number = match draws.below(32) {
        0 => draws.one_of(&OUTSIDE),
        1..=3 => draws.one_of(&NUMBERS),
        _ => NUMBERS[0],
    };
    let remembered = draw_remembered(draws, mode, 24);
    let is_made = number == NUMBERS[0] && remembered_from(remembered).is_some();
    let mut case = Expansion {
        stores,
        number,
        remembered,
        room: 0,
        order: order.filter(|_| is_made),
    };
    case.room = draw_room(draws, &case);
    case
}

/// Each body in one store; now and then the saved store has another for a number that both have.
fn draw_stores(draws: &mut Draws, bodies: &[Vec<u8>]) -> Pair {
    let mut macros = [BTreeMap::new(), BTreeMap::new()];
    for (&number, body) in NUMBERS.iter().zip(bodies) {
        let is_body = (1..=LONGEST).contains(&body.len());
        if is_body {
            macros[draws.below(2)].insert(number, body.clone());
        }
        if draws.one_in(6) {
            macros[1].entry(number).or_insert(vec![66]);
        }
    }
    let [volatile, saved] = macros.map(|macros| store_of(&macros, draws.below(4)));
    Pair { volatile, saved }
}

/// None, just enough, one too few, or any.
fn draw_room(draws: &mut Draws, case: &Expansion) -> usize {
    let length = length_of(case).unwrap_or(0);
    match draws.below(6) {
        0 => 0,
        1 => length.saturating_sub(1),
        2 => draws.below(length + 1),
        _ => length + draws.below(5),
    }
}

/// How long the expansion is, where there is one. Most are short, and for the others there is room for the longest of all.
fn length_of(case: &Expansion) -> Option<usize> {
    let expanded = match case.expanded_into(&mut [0; 1024]) {
        Err(Refusal::TooShort) => case.expanded_into(&mut vec![0; MOST_ENTERED * LONGEST]),
        other => other,
    };
    expanded.ok().map(|expanded| expanded.bytes)
}

fn any_bodies(draws: &mut Draws, is_anywhere: bool, mode: DelMode) -> Vec<Vec<u8>> {
    let defined = 1 + draws.below(DEFINED);
    let bodies = (0..defined).map(|index| draw_body(draws, index, is_anywhere, mode));
    bodies.collect()
}

/// Each calls the next; the last ends in something of interest. With eight of them that is at depth 8.
fn chain(draws: &mut Draws, mode: DelMode) -> Bodies {
    let length = DEEPEST - 2 + draws.below(5);
    let mut bodies: Vec<Vec<u8>> = (1..length)
        .map(|next| {
            let texts = [draw_text(draws, mode), draw_text(draws, mode)];
            [&texts[0][..], &call(draws, next, mode), &texts[1]].concat()
        })
        .collect();
    let ending = draws.below(6);
    let last = [draw_text(draws, mode), draw_ending(draws, ending, mode)].concat();
    bodies.push(last);
    let is_negative = ending == NEGATIVE && length == DEEPEST;
    (bodies, is_negative.then_some((8, 15)))
}

const NEGATIVE: usize = 0;

fn draw_ending(draws: &mut Draws, ending: usize, mode: DelMode) -> Vec<u8> {
    match ending {
        NEGATIVE => call_of_number(draws, -1, mode),
        1 => vec![ESC],
        2 => call(draws, ABSENT, mode),
        3 => call(draws, 5, mode),
        4 => vec![65],
        _ => call(draws, 0, mode),
    }
}

/// The root enters about 1,024 macros by its calls of 1 to 5, and then ends in something of interest: where they were just so many,
/// a call that is refused for two reasons at once.
fn tree(draws: &mut Draws, mode: DelMode) -> Bodies {
    let with_chain = draws.one_in(2);
    // The chain goes from depth 2 to depth 8, and a call in its last body is too deep.
    let behind = if with_chain { DEEPEST - 1 } else { 0 };
    let around = MOST_ENTERED - 1 - behind;
    let below = match draws.below(2) {
        0 => around,
        _ => around - 4 + draws.below(9),
    };
    let mut root = calls_that_enter(draws, below, mode);
    let ending = draws.below(6);
    root.extend(match with_chain {
        true => call(draws, 6, mode),
        false => draw_ending(draws, ending, mode),
    });
    let mut bodies = vec![root];
    bodies.extend((2..6).map(|next| call(draws, next, mode).repeat(4)));
    bodies.push(vec![65]);
    bodies.extend((7..13).map(|next| call(draws, next, mode)));
    bodies.push(call(draws, 5, mode));
    let order = match (with_chain, below == around) {
        (true, true) => Some((15, 16)),
        (false, true) if ending == NEGATIVE => Some((8, 16)),
        (false, true) if ending == 1 => Some((17, 16)),
        _ => None,
    };
    (bodies, order)
}
