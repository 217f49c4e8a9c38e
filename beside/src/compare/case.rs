//! What a case is, and where the two sides part.

use std::fmt;
use std::panic::{catch_unwind, AssertUnwindSafe};

use super::tally::Row;

/// From so many on: longer than any record or item.
const LONG_RUN: usize = 9;

pub trait Case: Clone + fmt::Display {
    /// Gives the case to the archive and to the second program and notes each answer, up to the first that differs.
    fn run(&self, row: &mut Row) -> Result<(), Difference>;

    /// Cases that are smaller in one thing, the greatest steps first.
    fn smaller(&self) -> Vec<Self>;
}

/// The call, and what each side said and left behind.
#[derive(Debug)]
pub struct Difference {
    call: String,
    archive: String,
    second: String,
}

impl fmt::Display for Difference {
    fn fmt(&self, text: &mut fmt::Formatter) -> fmt::Result {
        writeln!(text, "the call        {}", self.call)?;
        writeln!(text, "the archive     {}", self.archive)?;
        write!(text, "second program  {}", self.second)
    }
}

/// The words are asked for only where the sides differ.
pub fn same<S: PartialEq + fmt::Display>(
    call: impl FnOnce() -> String,
    archive: &S,
    second: &S,
) -> Result<(), Difference> {
    if archive == second {
        return Ok(());
    }
    Err(Difference {
        call: call(),
        archive: archive.to_string(),
        second: second.to_string(),
    })
}

/// Runs a case. Where one side stops in the middle, that is a difference too.
pub fn attempt<C: Case>(case: &C, row: &mut Row) -> Result<(), Difference> {
    let outcome = catch_unwind(AssertUnwindSafe(|| case.run(row)));
    outcome.unwrap_or_else(|_| {
        Err(Difference {
            call: "(one of them)".to_string(),
            archive: "(not known)".to_string(),
            second: "stopped in the middle (a panic)".to_string(),
        })
    })
}

/// What is only lent to be looked at must be as it was.
pub fn untouched<T: PartialEq + fmt::Display>(
    what: &str,
    after: &[T],
    before: &[T],
) -> Result<(), Difference> {
    if after == before {
        return Ok(());
    }
    Err(Difference {
        call: format!("{what} must stay as they were"),
        archive: in_decimal(after),
        second: in_decimal(before),
    })
}

/// A case as a person reads it: what it is, and a line for each thing that is lent.
pub fn labelled(text: &mut fmt::Formatter, title: &str, lines: &[(&str, String)]) -> fmt::Result {
    write!(text, "{title}")?;
    for (label, contents) in lines {
        write!(text, "\n{label:<16}{contents}")?;
    }
    Ok(())
}

/// The calls of a sequence, a line each.
pub fn numbered<T: fmt::Display>(text: &mut fmt::Formatter, calls: &[T]) -> fmt::Result {
    for (index, call) in calls.iter().enumerate() {
        write!(text, "\n{}. {call}", index + 1)?;
    }
    Ok(())
}

/// The same number many times over is shown once.
pub fn in_decimal<T: fmt::Display + PartialEq>(numbers: &[T]) -> String {
    if numbers.is_empty() {
        return "(none)".to_string();
    }
    let runs = numbers.chunk_by(|one, next| one == next);
    let runs: Vec<String> = runs.map(run_in_decimal).collect();
    runs.join(" ")
}

fn run_in_decimal<T: fmt::Display>(run: &[T]) -> String {
    if run.len() >= LONG_RUN {
        return format!("{} ({} times)", run[0], run.len());
    }
    let numbers: Vec<String> = run.iter().map(T::to_string).collect();
    numbers.join(" ")
}

#[cfg(test)]
mod tests {
    use super::*;

    #[test]
    fn equal_answers_are_no_difference() {
        assert!(same(|| unreachable!(), &7, &7).is_ok());
        assert!(untouched("bytes", &[1, 2], &[1, 2]).is_ok());
    }

    #[test]
    fn long_runs_are_shown_once() {
        assert_eq!(in_decimal(&[7, 7, 0]), "7 7 0");
        assert_eq!(in_decimal(&[7; 8]), "7 7 7 7 7 7 7 7");
        assert_eq!(
            in_decimal(&[&[0], &[7; 9][..], &[1]].concat()),
            "0 7 (9 times) 1"
        );
    }

    #[test]
    fn a_difference_tells_the_call_and_both_answers() {
        let difference = same(|| "ardh_step".to_string(), &0, &8).unwrap_err();
        assert_eq!(
            difference.to_string(),
            "the call        ardh_step\nthe archive     0\nsecond program  8"
        );
        let changed = untouched("the bytes", &[1, 2], &[]).unwrap_err();
        assert_eq!((&*changed.archive, &*changed.second), ("1 2", "(none)"));
    }
}
