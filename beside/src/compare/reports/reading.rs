//! One report read by both sides.

use std::fmt;

use second::answers::Reading;
use second::reports::{read_integer_report, read_string_report};

use crate::archive;
use crate::compare::case::{in_decimal, labelled, same, untouched, Case, Difference};
use crate::compare::fence::{Fenced, Junk};
use crate::compare::shrinking::{lesser, lower, with_each, without_front};
use crate::compare::tally::Row;

/// The bytes of an integer report, and of a string report's length.
const HEAD: usize = 3;

#[derive(Clone)]
pub struct ReportRead {
    pub bytes: Vec<u8>,
    pub start: usize,
    pub what: What,
}

#[derive(Clone, Copy, PartialEq, Eq)]
pub enum What {
    Integer,
    String { room: usize },
}

/// The value of an integer, the count of a string.
#[derive(PartialEq)]
struct Read {
    number: u8,
    value: i64,
    place: usize,
    list: Fenced<i32>,
}

impl Read {
    fn of<T: Into<i64>>(reading: Reading<T>, list: Fenced<i32>) -> Read {
        match reading {
            Ok(found) => Read {
                number: 0,
                value: found.value.into(),
                place: found.next,
                list,
            },
            // "Counts with a refusal are 0; a reading refusal gives its place."
            Err(refused) => Read {
                number: refused.refusal.number() as u8,
                value: 0,
                place: refused.place,
                list,
            },
        }
    }
}

impl ReportRead {
    fn room(&self) -> usize {
        match self.what {
            What::Integer => 0,
            What::String { room } => room,
        }
    }

    fn by_archive(&self, bytes: &[u8]) -> Read {
        let mut list = Fenced::room(self.room());
        let mut place = usize::JUNK;
        let (number, value) = match self.what {
            What::Integer => {
                let mut value = i32::JUNK;
                let number =
                    archive::read_integer_report(bytes, self.start, &mut value, &mut place);
                (number, i64::from(value))
            }
            What::String { .. } => {
                let mut count = usize::JUNK;
                let lent = list.lent();
                let number =
                    archive::read_string_report(bytes, self.start, lent, &mut count, &mut place);
                (number, count as i64)
            }
        };
        Read {
            number,
            value,
            place,
            list,
        }
    }

    fn by_second(&self) -> Read {
        let mut list = Fenced::room(self.room());
        match self.what {
            What::Integer => Read::of(read_integer_report(&self.bytes, self.start), list),
            What::String { .. } => {
                let found = read_string_report(&self.bytes, self.start, list.lent());
                let found = found.map(|found| found.map(|count| count as i64));
                Read::of(found, list)
            }
        }
    }

    /// What is wrong, each thing looked at by itself.
    fn reasons(&self) -> Vec<u8> {
        let mut reasons = Vec::new();
        let Some(behind) = self.bytes.get(self.start..) else {
            return vec![8];
        };
        let length = read_integer_report(&self.bytes, self.start).ok();
        let length = length.map(|found| found.value);
        let is_string = self.what != What::Integer;
        let count = length.filter(|length| is_string && (0..=256).contains(length));
        let count = count.unwrap_or(0) as usize;
        if behind.len() < HEAD + count {
            reasons.push(1);
        }
        let is_character = |byte: &u8| (32..=127).contains(byte);
        if is_string
            && length.is_some()
            && !behind[HEAD..].iter().take(count.max(1)).all(is_character)
        {
            reasons.push(3);
        }
        if count > self.room() {
            reasons.push(7);
        }
        reasons
    }
}

impl Case for ReportRead {
    fn run(&self, row: &mut Row) -> Result<(), Difference> {
        let bytes = self.bytes.clone();
        let second = self.by_second();
        same(
            || self.call().to_string(),
            &self.by_archive(&bytes),
            &second,
        )?;
        match second.number {
            0 => row.answer(0),
            number => row.refusal(number, &self.reasons()),
        }
        untouched("the bytes", &bytes, &self.bytes)
    }

    fn smaller(&self) -> Vec<ReportRead> {
        let rooms = match self.what {
            What::Integer => vec![],
            What::String { room } => lower(room),
        };
        let fronts = without_front(&self.bytes, self.start);
        [
            with_each(self, fronts, |case, front| (case.bytes, case.start) = front),
            with_each(self, lesser(&self.bytes), |case, bytes| case.bytes = bytes),
            with_each(self, lower(self.start), |case, start| case.start = start),
            with_each(self, rooms, |case, room| case.what = What::String { room }),
        ]
        .concat()
    }
}

impl ReportRead {
    fn call(&self) -> &'static str {
        match self.what {
            What::Integer => "ardh_read_integer_report",
            What::String { .. } => "ardh_read_string_report",
        }
    }
}

impl fmt::Display for ReportRead {
    fn fmt(&self, text: &mut fmt::Formatter) -> fmt::Result {
        let lines = [
            ("bytes", in_decimal(&self.bytes)),
            ("start", self.start.to_string()),
            ("room in list", self.room().to_string()),
        ];
        labelled(text, "A report read.", &lines)
    }
}

impl fmt::Display for Read {
    fn fmt(&self, text: &mut fmt::Formatter) -> fmt::Result {
        write!(
            text,
            "returns {}; value or count {}; place {}; list {}",
            self.number, self.value, self.place, self.list
        )
    }
}
