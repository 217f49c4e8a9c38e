//! The stack that each call of the archive takes.

use super::expanding::{small_stores, Stores, START};
use super::job::{Job, Measured};
use super::stack::depth_of;
use super::{defining, looking_up, painting, reading, writing};
use crate::archive;

pub struct Depth {
    pub calls: &'static str,
    pub bytes: usize,
}

/// The most that any of some calls takes.
pub fn all() -> Result<Vec<Depth>, String> {
    let halves = |jobs: Vec<Measured>| jobs.into_iter().map(|job| job.half);
    let depths = [
        ("next item", most_of(halves(reading::jobs()))?),
        ("write command", most_of(halves(writing::jobs()))?),
        ("RP and RL", most_of(halves(painting::jobs()))?),
        ("fresh, RU, RS, RH, step", of_setting()?),
        ("the four of reports", of_reports()?),
        ("define", most_of(halves(defining::jobs()))?),
        ("look up", most_of(halves(looking_up::jobs()))?),
        ("expand, depth 8 and 1,024 macros", of_expanding()?),
    ];
    let depth = |(calls, bytes)| Depth { calls, bytes };
    Ok(depths.map(depth).into())
}

fn most_of(jobs: impl Iterator<Item = Box<dyn Job>>) -> Result<usize, String> {
    let mut most = 0;
    for mut job in jobs {
        most = most.max(depth_of(&mut || job.run_archive())?);
    }
    Ok(most)
}

fn of_setting() -> Result<usize, String> {
    let mut record = [0; 7];
    depth_of(&mut || {
        archive::fresh(480, 360, &mut record);
        archive::set_bits(480, 360, &mut record, [1, 11, 3]);
        archive::set_viewport(480, 360, &mut record, [317, 41, 106, 163]);
        archive::set_beam(480, 360, &mut record, [250, 100]);
        archive::step(480, 360, &mut record);
    })
}

fn of_reports() -> Result<usize, String> {
    let (mut value, mut count, mut place) = (0, 0, 0);
    let mut out = [0; 300];
    let mut list = [65; 256];
    depth_of(&mut || {
        archive::write_integer_report(-65535, &mut out, 0, &mut place);
        archive::read_integer_report(&out, 0, &mut value, &mut place);
        archive::write_string_report(&list, &mut out, 0, &mut place);
        archive::read_string_report(&out, 0, &mut list, &mut count, &mut place);
    })
}

fn of_expanding() -> Result<usize, String> {
    let Stores { volatile, saved } = small_stores(14);
    let mut out = vec![0; 1 << 16];
    let mut remembered = [0; 3];
    let mut counts = [0; 2];
    depth_of(&mut || {
        archive::expand(
            &volatile,
            &saved,
            START,
            &mut remembered,
            &mut out,
            &mut counts,
        );
    })
}
