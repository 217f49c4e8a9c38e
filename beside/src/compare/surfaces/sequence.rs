//! A sequence of calls on one record and one surface, compared after each call.

use std::fmt;

use super::calls::Call;
use super::ends::met;
use super::reasons::reasons;
use super::side::Side;
use crate::compare::case::{in_decimal, labelled, numbered, same, Case, Difference};
use crate::compare::shrinking::{lower, lowered_array, shorter, with_each};
use crate::compare::tally::Row;

#[derive(Clone)]
pub struct Sequence {
    pub record: [usize; 7],
    pub calls: Vec<Call>,
}

impl Sequence {
    fn surface(&self) -> usize {
        self.calls.iter().map(|call| call.lent).max().unwrap_or(0)
    }

    /// The same calls with one side of the surface shorter wherever it is used, and the lent bytes with it.
    fn on_smaller_surfaces(&self) -> Vec<Sequence> {
        let mut cases = Vec::new();
        let Some(first) = self.calls.first() else {
            return cases;
        };
        for w in lower(first.w) {
            cases
                .push(self.with_sides(|call| (if call.w == first.w { w } else { call.w }, call.h)));
        }
        for h in lower(first.h) {
            cases
                .push(self.with_sides(|call| (call.w, if call.h == first.h { h } else { call.h })));
        }
        cases
    }

    fn with_sides(&self, sides: impl Fn(&Call) -> (usize, usize)) -> Sequence {
        let mut case = self.clone();
        for call in &mut case.calls {
            let is_whole = call.w.checked_mul(call.h) == Some(call.lent);
            (call.w, call.h) = sides(call);
            let whole = call.w.saturating_mul(call.h);
            call.lent = if is_whole {
                whole
            } else {
                call.lent.min(whole)
            };
        }
        case
    }
}

impl Sequence {
    /// What both sides are left with.
    pub fn carried_out(&self, row: &mut Row) -> Result<Side, Difference> {
        let mut archive = Side::before(self.record, self.surface());
        let mut second = Side::before(self.record, self.surface());
        for (index, call) in self.calls.iter().enumerate() {
            if let Some((field, value)) = call.spoiled {
                archive.record[field] = value;
                second.record[field] = value;
            }
            let record = second.record;
            archive.by_archive(call);
            second.by_second(call);
            same(|| format!("{}. {call}", index + 1), &archive, &second)?;
            match second.number {
                0 => row.done(&met(&call.what, record)),
                number => row.refusal(number, &reasons(call, record)),
            }
        }
        Ok(archive)
    }
}

impl Case for Sequence {
    fn run(&self, row: &mut Row) -> Result<(), Difference> {
        self.carried_out(row).map(|_| ())
    }

    fn smaller(&self) -> Vec<Sequence> {
        let mut cases = with_each(self, shorter(&self.calls), |case, calls| case.calls = calls);
        cases.extend(self.on_smaller_surfaces());
        for (place, call) in self.calls.iter().enumerate() {
            cases.extend(with_each(self, call.smaller(), |case, call| {
                case.calls[place] = call
            }));
        }
        let records = lowered_array(self.record);
        cases.extend(with_each(self, records, |case, record| {
            case.record = record
        }));
        cases
    }
}

impl fmt::Display for Sequence {
    fn fmt(&self, text: &mut fmt::Formatter) -> fmt::Result {
        let lines = [
            ("record at first", in_decimal(&self.record)),
            ("surface", format!("{} bytes, from 128 up", self.surface())),
        ];
        labelled(text, "Calls on one record and one surface.", &lines)?;
        numbered(text, &self.calls)
    }
}
