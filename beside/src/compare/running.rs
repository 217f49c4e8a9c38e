//! The fixed part, new cases for some minutes, and one case alone.

use std::sync::atomic::{AtomicUsize, Ordering::Relaxed};
use std::sync::Mutex;
use std::thread;
use std::time::Duration;

use super::kinds::{run_case, Kind, KINDS};
use super::progress::Progress;
use super::tally::Row;

/// The fixed part's: never changed, or what it prints is another.
const FIXED_SEED: u64 = 4105;

/// Between two looks at the clock.
const AT_A_TIME: u64 = 500;

/// With minutes each kind has its turn: such a part of its cases in the fixed part.
const PART: u64 = 200;

/// What was found: the table, or the first difference.
pub struct Report {
    pub text: String,
    pub is_good: bool,
}

struct Run {
    seed: u64,
    /// The fixed part has every kind, and must reach all; a run for minutes has those that are drawn, and need not.
    is_fixed: bool,
    rows: Vec<Row>,
    progress: Progress,
}

impl Run {
    fn start(seed: u64, is_fixed: bool) -> Run {
        Run {
            seed,
            is_fixed,
            rows: KINDS.iter().map(|_| Row::default()).collect(),
            progress: Progress::start(),
        }
    }

    fn go_on(&mut self, kind: usize, cases: u64) -> Result<(), String> {
        run_cases(self.seed, kind, cases, &mut self.rows[kind])?;
        self.progress.cases_done(cases, KINDS[kind].name);
        Ok(())
    }

    fn every_kind_in_turn(&mut self, until: Duration) -> Result<(), String> {
        loop {
            for (kind, &Kind { cases, .. }) in drawn_kinds() {
                self.go_on(kind, cases / PART)?;
                if self.progress.elapsed() >= until {
                    return Ok(());
                }
            }
        }
    }

    /// On all cores: a kind is the work of one.
    fn all_fixed_cases(&mut self) -> Result<(), String> {
        let cores = thread::available_parallelism().map_or(1, usize::from);
        let next = AtomicUsize::new(0);
        let shared = Mutex::new(self);
        thread::scope(|scope| {
            let work = || scope.spawn(|| kind_after_kind(&next, &shared));
            let workers: Vec<_> = (0..cores).map(|_| work()).collect();
            let outcomes = workers.into_iter().map(|worker| worker.join());
            outcomes
                .map(|outcome| outcome.expect("what stops in the middle is a difference"))
                .collect()
        })
    }

    fn kinds_and_rows(&self) -> impl Iterator<Item = (&'static Kind, &Row)> {
        let rows = KINDS.iter().zip(&self.rows);
        rows.filter(|(kind, _)| self.is_fixed || kind.is_drawn())
    }

    /// The complaints of the kinds that were run, each under its name.
    fn complaints(&self) -> Vec<String> {
        let mut complaints = Vec::new();
        for (kind, row) in self.kinds_and_rows() {
            let of_kind = row.complaints(kind).into_iter();
            complaints.extend(of_kind.map(|complaint| format!("{}: {complaint}", kind.name)));
        }
        complaints
    }

    fn table(&self) -> String {
        let mut text = format!("seed {}\n", self.seed);
        let mut all = Row::default();
        for (kind, row) in self.kinds_and_rows() {
            text += &format!("{}: {row}\n", kind.name);
            all.add(row);
        }
        text + &format!("all kinds: {}\n", all.answers_alone())
    }

    fn report(self, outcome: Result<(), String>) -> Report {
        self.progress.end();
        if let Err(text) = outcome {
            let is_good = false;
            return Report { text, is_good };
        }
        let complaints = self.complaints();
        let mut text = self.table();
        for complaint in &complaints {
            text += &format!("{complaint}\n");
        }
        text += "no difference";
        let is_good = complaints.is_empty() || !self.is_fixed;
        Report { text, is_good }
    }
}

/// The next cases of a kind; the text of a difference.
fn run_cases(seed: u64, kind: usize, cases: u64, row: &mut Row) -> Result<(), String> {
    let first = row.cases;
    for case in first..first + cases {
        run_case(kind, seed, case, row)
            .map_err(|text| difference(seed, &KINDS[kind], case, &text))?;
    }
    Ok(())
}

/// Takes the next kind, and again, until there is none. Behind a difference no kind is begun.
fn kind_after_kind(next: &AtomicUsize, shared: &Mutex<&mut Run>) -> Result<(), String> {
    let run = || shared.lock().expect("nothing stops that holds it");
    let seed = run().seed;
    loop {
        let number = next.fetch_add(1, Relaxed);
        let Some(kind) = KINDS.get(number) else {
            return Ok(());
        };
        let mut row = Row::default();
        while row.cases < kind.cases {
            let cases = AT_A_TIME.min(kind.cases - row.cases);
            run_cases(seed, number, cases, &mut row)
                .inspect_err(|_| next.store(KINDS.len(), Relaxed))?;
            run().progress.cases_done(cases, kind.name);
        }
        run().rows[number] = row;
    }
}

fn drawn_kinds() -> impl Iterator<Item = (usize, &'static Kind)> {
    let kinds = KINDS.iter().enumerate();
    kinds.filter(|(_, kind)| kind.is_drawn())
}

fn difference(seed: u64, kind: &Kind, case: u64, text: &str) -> String {
    format!(
        "DIFFERENCE in {}. The smallest input found:\n\n{text}\n\nagain: ./compare --seed {seed} --kind {} --case {case}",
        kind.name, kind.name
    )
}

pub fn fixed_part() -> Report {
    let mut run = Run::start(FIXED_SEED, true);
    let outcome = run.all_fixed_cases();
    run.report(outcome)
}

pub fn for_minutes(minutes: f64, seed: u64) -> Report {
    let mut run = Run::start(seed, false);
    let outcome = run.every_kind_in_turn(Duration::from_secs_f64(minutes * 60.0));
    run.report(outcome)
}

pub fn one_case(seed: u64, kind: usize, case: u64) -> Report {
    let mut row = Row::default();
    let kind_of_case = &KINDS[kind];
    match run_case(kind, seed, case, &mut row) {
        Ok(()) => Report {
            text: format!("{}: {row}\nno difference", kind_of_case.name),
            is_good: true,
        },
        Err(text) => Report {
            text: difference(seed, kind_of_case, case, &text),
            is_good: false,
        },
    }
}

#[cfg(test)]
mod tests {
    use super::*;
    use crate::compare::options::USAGE;

    #[test]
    fn the_same_cases_are_made_again() {
        let table = || {
            let mut run = Run::start(1, false);
            for (kind, _) in drawn_kinds() {
                run.go_on(kind, 20).unwrap();
            }
            run.table()
        };
        assert_eq!(table(), table());
    }

    #[test]
    fn every_kind_that_is_drawn_has_its_turn() {
        for (_, kind) in drawn_kinds() {
            assert_ne!(kind.cases / PART, 0, "{}", kind.name);
        }
    }

    #[test]
    fn the_usage_says_how_many_cases_there_are() {
        let drawn: u64 = drawn_kinds().map(|(_, kind)| kind.cases).sum();
        let all: u64 = KINDS.iter().map(|kind| kind.cases).sum();
        assert_eq!((drawn, all), (12_800_000, 66_740_617));
        assert!(USAGE.contains("12,800,000 cases that are drawn and 53,940,617 that are counted"));
    }

    #[test]
    fn what_was_not_reached_is_not_passed() {
        let report = Run::start(1, true).report(Ok(()));
        assert!(!report.is_good);
        assert!(report.text.contains("stores: 13 was not seen"));
        assert!(report.text.contains("surfaces: 96 first was not seen"));
        assert!(Run::start(1, false).report(Ok(())).is_good);
        let different = Run::start(1, false).report(Err("DIFFERENCE".to_string()));
        assert!(!different.is_good);
    }
}
