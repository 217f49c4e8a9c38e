//! One expansion by both sides.

use std::fmt;

use second::answers::Refusal;
use second::expansion::{expand, Expanded};
use second::store::{find, Stores};

use super::watching::watched;
use crate::archive;
use crate::compare::case::{in_decimal, labelled, same, Case, Difference};
use crate::compare::fence::{Fenced, Junk};
use crate::compare::names::Name;
use crate::compare::remembered::{met_outside, numbers_of, remembered_from};
use crate::compare::shrinking::{lower, lowered_array, with_each};
use crate::compare::stores::Pair;
use crate::compare::tally::Row;

#[derive(Clone)]
pub struct Expansion {
    pub stores: Pair,
    pub number: i32,
    pub remembered: [u16; 3],
    pub room: usize,
    /// Where the bodies were made to have two reasons at one call: the one that comes first, and the other.
    pub order: Option<(u8, u8)>,
}

/// The counts: bytes, macros entered.
#[derive(PartialEq)]
struct Said {
    returned: u8,
    counts: [usize; 2],
    remembered: [u16; 3],
    out: Fenced<u8>,
}

impl Expansion {
    fn by_archive(&self, lent: &Pair) -> Said {
        let mut said = Said {
            returned: 0,
            counts: [usize::JUNK; 2],
            remembered: self.remembered,
            out: Fenced::room(self.room),
        };
        said.returned = archive::expand(
            &lent.volatile,
            &lent.saved,
            self.number,
            &mut said.remembered,
            said.out.lent(),
            &mut said.counts,
        );
        said
    }

    fn by_second(&self) -> Said {
        let mut out = Fenced::room(self.room);
        let (returned, counts, remembered) = match self.expanded_into(out.lent()) {
            Ok(expanded) => {
                let remembered = numbers_of(expanded.remembered);
                (0, [expanded.bytes, expanded.entered], remembered)
            }
            Err(refusal) => (refusal.number() as u8, [0, 0], self.remembered),
        };
        Said {
            returned,
            counts,
            remembered,
            out,
        }
    }

    /// A mode outside is 8 where a point outside is: behind 12.
    pub fn expanded_into(&self, out: &mut [u8]) -> Result<Expanded, Refusal> {
        let Pair { volatile, saved } = &self.stores;
        match remembered_from(self.remembered) {
            Some(remembered) => expand(volatile, saved, self.number, remembered, out),
            None => Err(self.stores_read().err().unwrap_or(Refusal::NotValid)),
        }
    }

    fn stores_read(&self) -> Result<Stores<'_>, Refusal> {
        Stores::read(&self.stores.volatile, &self.stores.saved)
    }

    /// Where it is done, and 127 is filler at one end of it; or where there is no such mode.
    fn met(&self, said: &Said) -> Vec<Name> {
        let is_filler = [self.remembered[2], said.remembered[2]].contains(&1);
        match (said.returned, remembered_from(self.remembered)) {
            (0, Some(remembered)) if is_filler => {
                let stores = self.stores_read().expect("they were expanded from");
                watched(stores, remembered, self.number)
            }
            (8, None) => met_outside(self.remembered),
            _ => vec![],
        }
    }

    /// Other things that are wrong beside the one that was answered.
    fn reasons(&self, returned: u8) -> Vec<u8> {
        let mut reasons = Vec::new();
        let Pair { volatile, saved } = &self.stores;
        if !(0..=32767).contains(&self.number) || remembered_from(self.remembered).is_none() {
            reasons.push(8);
        }
        if find(volatile, saved, self.number) == Err(Refusal::NoSuchMacro) {
            reasons.push(14);
        }
        // No room is too little for whatever else would be written.
        if self.room == 0 {
            reasons.push(7);
        }
        if let Some((first, other)) = self.order {
            reasons.extend((first == returned).then_some(other));
        }
        reasons
    }
}

impl Case for Expansion {
    fn run(&self, row: &mut Row) -> Result<(), Difference> {
        let lent = self.stores.clone();
        let second = self.by_second();
        same(
            || "ardh_expand".to_string(),
            &self.by_archive(&lent),
            &second,
        )?;
        match second.returned {
            0 => row.answer(0),
            number => row.refusal(number, &self.reasons(number)),
        }
        row.meet_all(&self.met(&second));
        lent.untouched(&self.stores)
    }

    fn smaller(&self) -> Vec<Expansion> {
        [
            with_each(self, self.stores.smaller(), |case, stores| {
                case.stores = stores
            }),
            with_each(self, lower(self.number), |case, number| {
                case.number = number
            }),
            with_each(self, lowered_array(self.remembered), |case, remembered| {
                case.remembered = remembered
            }),
            with_each(self, lower(self.room), |case, room| case.room = room),
        ]
        .concat()
    }
}

impl fmt::Display for Expansion {
    fn fmt(&self, text: &mut fmt::Formatter) -> fmt::Result {
        labelled(text, "An expansion.", &self.stores.lines())?;
        write!(text, "\nnumber          {}", self.number)?;
        write!(text, "\nremembered      {}", in_decimal(&self.remembered))?;
        write!(text, "\nroom in out     {}", self.room)
    }
}

impl fmt::Display for Said {
    fn fmt(&self, text: &mut fmt::Formatter) -> fmt::Result {
        let counts = in_decimal(&self.counts);
        let remembered = in_decimal(&self.remembered);
        write!(
            text,
            "returns {}; counts {counts}; remembered {remembered}; out {}",
            self.returned, self.out
        )
    }
}
