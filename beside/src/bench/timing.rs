//! Timing: short rounds of the two programs in turn, and one of the best rounds of each.

use super::job::Job;
use std::ffi::{c_int, c_long};

/// A round repeats its job until it is long enough for the clock.
const SHORTEST_ROUND: f64 = 1e6;
/// For how long a job is measured, after the fewest rounds.
const BUDGET: f64 = 1e9;
const FEWEST_ROUNDS: usize = 3;
const MOST_ROUNDS: usize = 300;

/// The time of one run of a job, in nanoseconds.
#[derive(Clone, Copy)]
pub struct Times {
    pub archive: f64,
    pub plain: f64,
}

impl Times {
    pub fn ratio(&self) -> f64 {
        self.archive / self.plain
    }
}

pub fn measure(job: &mut dyn Job) -> Times {
    let archive_runs = runs_for_a_round(|| job.run_archive());
    let plain_runs = runs_for_a_round(|| job.run_plain());
    let mut archive = Vec::new();
    let mut plain = Vec::new();
    let begun = nanoseconds();
    for round in 0..MOST_ROUNDS {
        if round >= FEWEST_ROUNDS && nanoseconds() - begun > BUDGET {
            break;
        }
        archive.push(time_of(archive_runs, || job.run_archive()));
        plain.push(time_of(plain_runs, || job.run_plain()));
    }
    Times {
        archive: undisturbed(archive),
        plain: undisturbed(plain),
    }
}

/// The time that one round in ten beats. What else the machine does makes a round longer, so a median would measure that too; but a
/// clock may slip, so the very best is not taken where there are many.
fn undisturbed(mut rounds: Vec<f64>) -> f64 {
    rounds.sort_by(f64::total_cmp);
    rounds[rounds.len() / 10]
}

/// How many runs a round has. The first run, which warms the caches, is not counted.
fn runs_for_a_round(mut run: impl FnMut()) -> u32 {
    run();
    let begun = nanoseconds();
    let mut runs = 0;
    while nanoseconds() - begun < SHORTEST_ROUND {
        run();
        runs += 1;
    }
    runs.max(1)
}

fn time_of(runs: u32, mut run: impl FnMut()) -> f64 {
    let begun = nanoseconds();
    for _ in 0..runs {
        run();
    }
    (nanoseconds() - begun) / f64::from(runs)
}

#[repr(C)]
struct Time {
    seconds: i64,
    nanoseconds: c_long,
}

extern "C" {
    fn clock_gettime(clock: c_int, time: *mut Time) -> c_int;
}

/// The clock of the time that this thread has been running (Linux: CLOCK_THREAD_CPUTIME_ID).
const THREAD_CLOCK: c_int = 3;

/// While other programs have the processor this clock stands still.
fn nanoseconds() -> f64 {
    let mut time = Time {
        seconds: 0,
        nanoseconds: 0,
    };
    // The call writes the two fields and keeps nothing.
    let failed = unsafe { clock_gettime(THREAD_CLOCK, &mut time) } != 0;
    assert!(!failed, "the thread's clock cannot be read");
    time.seconds as f64 * 1e9 + time.nanoseconds as f64
}

#[cfg(test)]
mod tests {
    use super::*;

    #[test]
    fn one_slip_of_the_clock_does_not_count() {
        let mut rounds = vec![5.0; 19];
        rounds.push(1.0);
        assert_eq!(undisturbed(rounds), 5.0);
        assert_eq!(undisturbed(vec![3.0, 2.0, 4.0]), 2.0);
    }

    #[test]
    fn the_clock_goes_on_while_the_thread_runs() {
        let begun = nanoseconds();
        assert!(runs_for_a_round(|| ()) > 1);
        assert!(nanoseconds() - begun >= SHORTEST_ROUND);
    }
}
