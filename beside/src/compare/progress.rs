//! The line on standard error that says how far it is.

use std::io::{self, IsTerminal, Write};
use std::time::{Duration, Instant};

const ON_TERMINAL: Duration = Duration::from_secs(1);
const ELSEWHERE: Duration = Duration::from_secs(5);

pub struct Progress {
    started: Instant,
    shown: Instant,
    is_terminal: bool,
    cases: u64,
}

impl Progress {
    pub fn start() -> Progress {
        Progress {
            started: Instant::now(),
            shown: Instant::now(),
            is_terminal: io::stderr().is_terminal(),
            cases: 0,
        }
    }

    pub fn elapsed(&self) -> Duration {
        self.started.elapsed()
    }

    pub fn cases_done(&mut self, cases: u64, kind: &str) {
        self.cases += cases;
        let pause = if self.is_terminal {
            ON_TERMINAL
        } else {
            ELSEWHERE
        };
        if self.shown.elapsed() >= pause {
            self.shown = Instant::now();
            self.show(kind);
        }
    }

    /// A lost progress line is no reason to stop.
    fn show(&self, kind: &str) {
        let seconds = self.elapsed().as_secs();
        let line = format!("compare: {} cases in {seconds} s, now {kind}", self.cases);
        let mut stderr = io::stderr();
        let _ = if self.is_terminal {
            write!(stderr, "\r{line:<70}").and_then(|()| stderr.flush())
        } else {
            writeln!(stderr, "{line}")
        };
    }

    /// Leaves the line free for what is printed next.
    pub fn end(&self) {
        if self.is_terminal {
            eprint!("\r{:<70}\r", "");
        }
    }
}
