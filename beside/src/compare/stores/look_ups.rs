//! One look up in two stores.

use std::fmt;

use second::answers::Refusal;
use second::store::find;

use super::making::{draw_store, NUMBERS, OUTSIDE};
use super::pair::Pair;
use crate::archive;
use crate::compare::case::{in_decimal, labelled, same, Case, Difference};
use crate::compare::draws::Draws;
use crate::compare::fence::Junk;
use crate::compare::shrinking::{lower, with_each};
use crate::compare::tally::Row;

const IN_VOLATILE: usize = 1;
const IN_SAVED: usize = 2;

#[derive(Clone)]
pub struct LookUp {
    stores: Pair,
    number: i32,
}

/// The place: which store, where the body starts, its length.
#[derive(PartialEq)]
struct Found {
    returned: u8,
    place: [usize; 3],
}

pub fn look_up(draws: &mut Draws) -> LookUp {
    let mut stores = Pair {
        volatile: draw_store(draws),
        saved: draw_store(draws),
    };
    stores.spoil(draws, 12);
    let number = match draws.below(12) {
        0 => draws.one_of(&OUTSIDE),
        1 => draws.between(0, 32767),
        _ => draws.one_of(&NUMBERS),
    };
    LookUp { stores, number }
}

/// Where in a store that holds it a body starts, and its length.
fn stretch(store: &[u8], body: &[u8]) -> [usize; 2] {
    [body.as_ptr() as usize - store.as_ptr() as usize, body.len()]
}

impl LookUp {
    fn by_archive(&self, lent: &Pair) -> Found {
        let mut place = [usize::JUNK; 3];
        let returned = archive::look_up(&lent.volatile, &lent.saved, self.number, &mut place);
        Found { returned, place }
    }

    fn by_second(&self) -> Found {
        match self.place() {
            Ok(place) => Found { returned: 0, place },
            Err(refusal) => Found {
                returned: refusal.number() as u8,
                place: [0; 3],
            },
        }
    }

    fn place(&self) -> Result<[usize; 3], Refusal> {
        let Pair { volatile, saved } = &self.stores;
        let body = find(volatile, saved, self.number)?;
        // "As part of the volatile store if it is there, otherwise as part of the saved store."
        let (store, [start, length]) = match find(volatile, &[], self.number) {
            Ok(body) => (IN_VOLATILE, stretch(volatile, body)),
            Err(_) => (IN_SAVED, stretch(saved, body)),
        };
        Ok([store, start, length])
    }
}

impl Case for LookUp {
    fn run(&self, row: &mut Row) -> Result<(), Difference> {
        let lent = self.stores.clone();
        let second = self.by_second();
        same(
            || "ardh_look_up".to_string(),
            &self.by_archive(&lent),
            &second,
        )?;
        let is_outside = second.returned > 0 && !(0..=32767).contains(&self.number);
        row.refusal(second.returned, if is_outside { &[8] } else { &[] });
        lent.untouched(&self.stores)
    }

    fn smaller(&self) -> Vec<LookUp> {
        [
            with_each(self, self.stores.smaller(), |case, stores| {
                case.stores = stores
            }),
            with_each(self, lower(self.number), |case, number| {
                case.number = number
            }),
        ]
        .concat()
    }
}

impl fmt::Display for LookUp {
    fn fmt(&self, text: &mut fmt::Formatter) -> fmt::Result {
        labelled(text, "A look up.", &self.stores.lines())?;
        write!(text, "\nnumber          {}", self.number)
    }
}

impl fmt::Display for Found {
    fn fmt(&self, text: &mut fmt::Formatter) -> fmt::Result {
        write!(
            text,
            "returns {}; place {}",
            self.returned,
            in_decimal(&self.place)
        )
    }
}

#[cfg(test)]
mod tests {
    use super::*;

    #[test]
    fn the_place_says_which_store_holds_the_body() {
        let store = [0, 10, 2, 72, 105, 0, 0, 0];
        let told = |volatile: &[u8], saved: &[u8], number| {
            let stores = Pair {
                volatile: volatile.to_vec(),
                saved: saved.to_vec(),
            };
            LookUp { stores, number }.by_second().to_string()
        };
        assert_eq!(told(&store, &store, 5), "returns 0; place 1 3 2");
        assert_eq!(told(&[], &store, 5), "returns 0; place 2 3 2");
        assert_eq!(told(&store, &[], 6), "returns 14; place 0 0 0");
        assert_eq!(told(&store, &[], -1), "returns 8; place 0 0 0");
        assert_eq!(told(&store, &[1], -1), "returns 12; place 0 0 0");
    }
}
