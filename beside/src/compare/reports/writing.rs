//! One report written by both sides.

use std::fmt;

use second::reports::{write_integer_report, write_string_report};

use crate::archive;
use crate::compare::case::{in_decimal, labelled, same, untouched, Case, Difference};
use crate::compare::fence::{Fenced, Junk};
use crate::compare::shrinking::{lesser, lower, with_each};
use crate::compare::tally::Row;

/// No report is shorter.
const SHORTEST: usize = 3;

#[derive(Clone)]
pub struct ReportWritten {
    pub what: What,
    pub room: usize,
    pub start: usize,
}

#[derive(Clone)]
pub enum What {
    Integer(i32),
    String(Vec<i32>),
}

#[derive(PartialEq)]
struct Written {
    number: u8,
    next: usize,
    out: Fenced<u8>,
}

impl ReportWritten {
    fn by_archive(&self, what: &What) -> Written {
        let mut out = Fenced::room(self.room);
        let mut next = usize::JUNK;
        let lent = out.lent();
        let number = match what {
            What::Integer(value) => {
                archive::write_integer_report(*value, lent, self.start, &mut next)
            }
            What::String(list) => archive::write_string_report(list, lent, self.start, &mut next),
        };
        Written { number, next, out }
    }

    fn by_second(&self) -> Written {
        let mut out = Fenced::room(self.room);
        let written = match &self.what {
            What::Integer(value) => write_integer_report(*value, out.lent(), self.start),
            What::String(list) => write_string_report(list, out.lent(), self.start),
        };
        match written {
            Ok(next) => Written {
                number: 0,
                next,
                out,
            },
            Err(refusal) => Written {
                number: refusal.number() as u8,
                next: 0,
                out,
            },
        }
    }

    fn list(&self) -> &[i32] {
        match &self.what {
            What::Integer(_) => &[],
            What::String(list) => list,
        }
    }

    fn smaller_whats(&self) -> Vec<What> {
        match &self.what {
            What::Integer(value) => lower(*value).into_iter().map(What::Integer).collect(),
            What::String(list) => lesser(list).into_iter().map(What::String).collect(),
        }
    }
}

impl Case for ReportWritten {
    fn run(&self, row: &mut Row) -> Result<(), Difference> {
        let lent = self.clone();
        let second = self.by_second();
        let call = || match self.what {
            What::Integer(_) => "ardh_write_integer_report".to_string(),
            What::String(_) => "ardh_write_string_report".to_string(),
        };
        same(call, &self.by_archive(&lent.what), &second)?;
        let is_short = self.room.saturating_sub(self.start) < SHORTEST;
        row.refusal(second.number, if is_short { &[7] } else { &[] });
        untouched("the entries", lent.list(), self.list())
    }

    fn smaller(&self) -> Vec<ReportWritten> {
        [
            with_each(self, self.smaller_whats(), |case, what| case.what = what),
            with_each(self, lower(self.room), |case, room| case.room = room),
            with_each(self, lower(self.start), |case, start| case.start = start),
        ]
        .concat()
    }
}

impl fmt::Display for ReportWritten {
    fn fmt(&self, text: &mut fmt::Formatter) -> fmt::Result {
        let what = match &self.what {
            What::Integer(value) => ("value", value.to_string()),
            What::String(list) => ("list", in_decimal(list)),
        };
        let room = ("room in out", self.room.to_string());
        let start = ("start", self.start.to_string());
        labelled(text, "A report written.", &[what, room, start])
    }
}

impl fmt::Display for Written {
    fn fmt(&self, text: &mut fmt::Formatter) -> fmt::Result {
        write!(
            text,
            "returns {}; next {}; out {}",
            self.number, self.next, self.out
        )
    }
}
