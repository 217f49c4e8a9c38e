//! The two stores that looking up and expanding are lent.

use super::making::spoil_store;
use super::smaller::smaller_stores;
use crate::compare::case::{in_decimal, untouched, Difference};
use crate::compare::draws::Draws;
use crate::compare::shrinking::with_each;

#[derive(Clone)]
pub struct Pair {
    pub volatile: Vec<u8>,
    pub saved: Vec<u8>,
}

impl Pair {
    /// Each of them once in so many times.
    pub fn spoil(&mut self, draws: &mut Draws, times: usize) {
        for store in [&mut self.volatile, &mut self.saved] {
            if draws.one_in(times) {
                spoil_store(draws, store);
            }
        }
    }

    pub fn smaller(&self) -> Vec<Pair> {
        let volatile = smaller_stores(&self.volatile);
        let saved = smaller_stores(&self.saved);
        [
            with_each(self, volatile, |pair, store| pair.volatile = store),
            with_each(self, saved, |pair, store| pair.saved = store),
        ]
        .concat()
    }

    pub fn untouched(&self, before: &Pair) -> Result<(), Difference> {
        untouched(
            "the bytes of the volatile store",
            &self.volatile,
            &before.volatile,
        )?;
        untouched("the bytes of the saved store", &self.saved, &before.saved)
    }

    pub fn lines(&self) -> [(&'static str, String); 2] {
        [
            ("volatile store", in_decimal(&self.volatile)),
            ("saved store", in_decimal(&self.saved)),
        ]
    }
}
