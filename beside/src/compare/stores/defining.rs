//! A sequence of definitions in one store, compared after each call.

use std::fmt;

use second::store::{define, is_well_formed};

use super::making::{draw_store, spoil_store, NUMBERS, OUTSIDE};
use super::smaller::smaller_stores;
use crate::archive;
use crate::compare::case::{in_decimal, labelled, numbered, same, untouched, Case, Difference};
use crate::compare::draws::Draws;
use crate::compare::fence::Fenced;
use crate::compare::shrinking::{lesser, lower, shorter, with_each};
use crate::compare::tally::Row;

const HEADER: usize = 3;
const ODD_CONTENTS: [i32; 6] = [-1, 127, 128, 256, i32::MIN, i32::MAX];

#[derive(Clone)]
pub struct Definitions {
    store: Vec<u8>,
    calls: Vec<Call>,
}

#[derive(Clone)]
struct Call {
    number: i32,
    contents: Vec<i32>,
}

/// One side's answer, and its store afterwards.
#[derive(Clone, PartialEq)]
struct Defined {
    returned: u8,
    store: Fenced<u8>,
}

pub fn definitions(draws: &mut Draws) -> Definitions {
    let mut store = match draws.below(4) {
        0 => vec![0; draws.below(40)],
        _ => draw_store(draws),
    };
    if draws.one_in(16) {
        spoil_store(draws, &mut store);
    }
    let length = 1 + draws.below(8);
    let calls = (0..length).map(|_| draw_call(draws));
    let calls = calls.collect();
    Definitions { store, calls }
}

fn draw_call(draws: &mut Draws) -> Call {
    let number = match draws.below(24) {
        0 => draws.one_of(&OUTSIDE),
        1 => draws.between(0, 32767),
        _ => draws.one_of(&NUMBERS),
    };
    let length = match draws.below(48) {
        0 => draws.one_of(&[255, 256, 257, 258, 600]),
        1 => draws.below(256),
        2..=10 => 0,
        _ => 1 + draws.below(10),
    };
    let mut contents: Vec<i32> = (0..length).map(|_| draws.between(0, 127)).collect();
    if draws.one_in(16) && length > 0 {
        contents[draws.below(length)] = draws.one_of(&ODD_CONTENTS);
    }
    Call { number, contents }
}

/// What is wrong, each thing looked at by itself.
fn reasons(call: &Call, store: &[u8]) -> Vec<u8> {
    let mut reasons = Vec::new();
    if !is_well_formed(store) {
        reasons.push(12);
    }
    let are_contents = call.contents.iter().all(|entry| (0..=127).contains(entry));
    let is_number = (0..=32767).contains(&call.number);
    if !is_number || !are_contents || call.contents.len() > 256 {
        reasons.push(8);
    }
    // By itself it would not fit, whatever else the store holds.
    if !call.contents.is_empty() && HEADER + call.contents.len() > store.len() {
        reasons.push(13);
    }
    reasons
}

impl Case for Definitions {
    fn run(&self, row: &mut Row) -> Result<(), Difference> {
        let mut archive = Defined {
            returned: 0,
            store: Fenced::holding(&self.store),
        };
        let mut second = archive.clone();
        let lent = self.calls.clone();
        for (index, call) in self.calls.iter().enumerate() {
            let contents = &lent[index].contents;
            let before = second.store.lent().to_vec();
            archive.returned = archive::define(archive.store.lent(), call.number, contents);
            let defined = define(second.store.lent(), call.number, &call.contents);
            second.returned = defined.map_or_else(|refusal| refusal.number() as u8, |()| 0);
            same(|| format!("{}. {call}", index + 1), &archive, &second)?;
            match second.returned {
                0 => row.answer(0),
                number => row.refusal(number, &reasons(call, &before)),
            }
            untouched("the contents", contents, &call.contents)?;
        }
        Ok(())
    }

    fn smaller(&self) -> Vec<Definitions> {
        let mut cases = with_each(self, shorter(&self.calls), |case, calls| case.calls = calls);
        let stores = smaller_stores(&self.store);
        cases.extend(with_each(self, stores, |case, store| case.store = store));
        for (place, call) in self.calls.iter().enumerate() {
            cases.extend(with_each(self, call.smaller(), |case, call| {
                case.calls[place] = call
            }));
        }
        cases
    }
}

impl Call {
    fn smaller(&self) -> Vec<Call> {
        [
            with_each(self, lesser(&self.contents), |call, contents| {
                call.contents = contents
            }),
            with_each(self, lower(self.number), |call, number| {
                call.number = number
            }),
        ]
        .concat()
    }
}

impl fmt::Display for Definitions {
    fn fmt(&self, text: &mut fmt::Formatter) -> fmt::Result {
        let store = ("store at first", in_decimal(&self.store));
        labelled(text, "Definitions in one store.", &[store])?;
        numbered(text, &self.calls)
    }
}

impl fmt::Display for Call {
    fn fmt(&self, text: &mut fmt::Formatter) -> fmt::Result {
        let contents = in_decimal(&self.contents);
        write!(
            text,
            "ardh_define number {}, contents {contents}",
            self.number
        )
    }
}

impl fmt::Display for Defined {
    fn fmt(&self, text: &mut fmt::Formatter) -> fmt::Result {
        write!(text, "returns {}; store {}", self.returned, self.store)
    }
}
