//! How many cases of each kind there were, and which answers were seen.

use std::collections::BTreeMap;
use std::fmt;

use super::kinds::{Kind, Order};
use super::names::Name;

/// The numbers that the unit gives back, 0 to 17.
pub const NUMBERS: usize = 18;

/// What was seen of one kind of cases.
#[derive(Clone)]
pub struct Row {
    pub cases: u64,
    answers: [u64; NUMBERS],
    /// By the number given, and by another whose reason was there too.
    orders: [[u64; NUMBERS]; NUMBERS],
    /// By the name of what a call met.
    met: BTreeMap<Name, u64>,
}

impl Default for Row {
    fn default() -> Row {
        Row {
            cases: 0,
            answers: [0; NUMBERS],
            orders: [[0; NUMBERS]; NUMBERS],
            met: BTreeMap::new(),
        }
    }
}

impl Row {
    pub fn answer(&mut self, number: u8) {
        self.answers[usize::from(number)] += 1;
    }

    /// Notes an answer, and the other reasons that were there when it was given.
    pub fn refusal(&mut self, number: u8, reasons: &[u8]) {
        self.answer(number);
        for &other in reasons.iter().filter(|&&other| other != number) {
            self.orders[usize::from(number)][usize::from(other)] += 1;
        }
    }

    /// Notes that a call was done, and what it met.
    pub fn done(&mut self, met: &[Name]) {
        self.answer(0);
        self.meet_all(met);
    }

    pub fn meet_all(&mut self, met: &[Name]) {
        for &what in met {
            self.meet(what);
        }
    }

    pub fn meet(&mut self, what: Name) {
        *self.met.entry(what).or_default() += 1;
    }

    pub fn add(&mut self, other: &Row) {
        self.cases += other.cases;
        for number in 0..NUMBERS {
            self.answers[number] += other.answers[number];
            for behind in 0..NUMBERS {
                self.orders[number][behind] += other.orders[number][behind];
            }
        }
        for (&what, &times) in &other.met {
            *self.met.entry(what).or_default() += times;
        }
    }

    pub fn answers_alone(&self) -> Row {
        Row {
            cases: self.cases,
            answers: self.answers,
            ..Row::default()
        }
    }

    /// What a kind can give or meet and was not seen, and what was seen and cannot be.
    pub fn complaints(&self, kind: &Kind) -> Vec<String> {
        let mut complaints = self.complaints_of_numbers(kind.numbers, kind.orders);
        for &what in kind.met.iter().copied().flatten() {
            let seen = self.met.get(what).copied().unwrap_or(0);
            complain(&mut complaints, seen, true, || what.to_string());
        }
        for (&what, &seen) in &self.met {
            let can_be = kind.met.iter().any(|names| names.contains(&what));
            complain(&mut complaints, seen, can_be, || what.to_string());
        }
        complaints
    }

    fn complaints_of_numbers(&self, numbers: &[u8], orders: &[Order]) -> Vec<String> {
        let mut complaints = Vec::new();
        for number in 0..NUMBERS as u8 {
            let seen = self.answers[usize::from(number)];
            complain(&mut complaints, seen, numbers.contains(&number), || {
                number.to_string()
            });
            for behind in 0..NUMBERS as u8 {
                let seen = self.orders[usize::from(number)][usize::from(behind)];
                let is_order = |order: &Order| order.0 == number && order.1.contains(&behind);
                complain(&mut complaints, seen, orders.iter().any(is_order), || {
                    format!("{number} before {behind}")
                });
            }
        }
        complaints
    }
}

fn complain(complaints: &mut Vec<String>, seen: u64, can_be: bool, what: impl Fn() -> String) {
    match (seen, can_be) {
        (0, true) => complaints.push(format!("{} was not seen", what())),
        (1.., false) => complaints.push(format!("{} was seen and cannot be", what())),
        _ => {}
    }
}

/// Up to three lines: the answers by number, how often one number went before another, and what was met.
impl fmt::Display for Row {
    fn fmt(&self, text: &mut fmt::Formatter) -> fmt::Result {
        let answers: u64 = self.answers.iter().sum();
        write!(text, "{} cases, {answers} answers:", self.cases)?;
        for (number, &times) in self.answers.iter().enumerate() {
            write_times(text, &number.to_string(), times)?;
        }
        if self.orders.iter().flatten().any(|&times| times > 0) {
            write!(text, "\n    two reasons at once:")?;
        }
        for (number, others) in self.orders.iter().enumerate() {
            for (behind, &times) in others.iter().enumerate() {
                write_times(text, &format!("{number} before {behind}"), times)?;
            }
        }
        if !self.met.is_empty() {
            write!(text, "\n    met:")?;
        }
        for (what, &times) in &self.met {
            write_times(text, what, times)?;
        }
        Ok(())
    }
}

fn write_times(text: &mut fmt::Formatter, what: &str, times: u64) -> fmt::Result {
    match times {
        0 => Ok(()),
        _ => write!(text, " [{what}] {times}"),
    }
}

#[cfg(test)]
mod tests {
    use super::*;
    use crate::compare::kinds::Making;

    fn row() -> Row {
        let mut row = Row {
            cases: 2,
            ..Row::default()
        };
        row.answer(0);
        row.refusal(11, &[11, 8, 9]);
        row.refusal(11, &[8]);
        row
    }

    fn kind(
        numbers: &'static [u8],
        orders: &'static [Order],
        met: &'static [&'static [Name]],
    ) -> Kind {
        Kind {
            name: "sample",
            cases: 0,
            numbers,
            orders,
            met,
            making: Making::Counted(|_, _| Ok(())),
        }
    }

    #[test]
    fn answers_and_orders_are_shown() {
        assert_eq!(
            row().to_string(),
            "2 cases, 3 answers: [0] 1 [11] 2\n    two reasons at once: [11 before 8] 2 [11 before 9] 1"
        );
        let mut plain = Row::default();
        plain.answer(17);
        assert_eq!(plain.to_string(), "0 cases, 1 answers: [17] 1");
    }

    #[test]
    fn rows_add_up() {
        let mut sum = row();
        sum.add(&row());
        assert_eq!(
            sum.to_string(),
            "4 cases, 6 answers: [0] 2 [11] 4\n    two reasons at once: [11 before 8] 4 [11 before 9] 2"
        );
        let alone = "4 cases, 6 answers: [0] 2 [11] 4";
        assert_eq!(sum.answers_alone().to_string(), alone);
    }

    #[test]
    fn what_was_met_is_shown_and_adds_up() {
        let mut row = Row::default();
        row.done(&["96", "96 first"]);
        row.done(&["96"]);
        row.done(&[]);
        let mut sum = row.clone();
        sum.add(&row);
        let shown = "0 cases, 6 answers: [0] 6\n    met: [96] 4 [96 first] 2";
        assert_eq!(sum.to_string(), shown);
        assert_eq!(sum.answers_alone().to_string(), "0 cases, 6 answers: [0] 6");
    }

    #[test]
    fn what_was_not_reached_is_named() {
        let complaints = row().complaints(&kind(&[0, 11], &[(11, &[8, 9])], &[]));
        assert!(complaints.is_empty());
        assert_eq!(
            row().complaints(&kind(&[0, 8, 11], &[(8, &[9]), (11, &[8, 9])], &[])),
            ["8 was not seen", "8 before 9 was not seen"]
        );
        assert_eq!(
            row().complaints(&kind(&[0], &[(11, &[8])], &[])),
            [
                "11 was seen and cannot be",
                "11 before 9 was seen and cannot be"
            ]
        );
    }

    #[test]
    fn what_was_not_met_is_named() {
        let mut row = Row::default();
        row.done(&["96"]);
        assert!(row.complaints(&kind(&[0], &[], &[&["96"]])).is_empty());
        assert_eq!(
            row.complaints(&kind(&[0], &[], &[&["96 first"]])),
            ["96 first was not seen", "96 was seen and cannot be"]
        );
    }
}
