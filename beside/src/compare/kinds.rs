//! The kinds of cases: how each is made, and what must be seen of it.

use super::commands::{troubled_command, valid_command};
use super::draws::Draws;
use super::every;
use super::expansions::expansion;
use super::names::*;
use super::reports::{
    integer_report_read, integer_report_written, string_report_read, string_report_written,
};
use super::shrinking::compared;
use super::stores::{definitions, look_up};
use super::streams::{damaged_stream, random_stream, single_item, valid_stream};
use super::surfaces::{beam_records, picture, surfaces, MET, WAYS};
use super::tally::Row;
use Making::{Counted, Drawn};

/// A number, and those that it comes before where both have their reason.
pub type Order = (u8, &'static [u8]);

pub struct Kind {
    pub name: &'static str,
    /// How many cases the fixed part has.
    pub cases: u64,
    /// The numbers that such a case can be answered with.
    pub numbers: &'static [u8],
    /// The orders that such a case can show.
    pub orders: &'static [Order],
    /// What such a case can meet, by groups.
    pub met: &'static [&'static [Name]],
    pub making: Making,
}

/// Makes a case, runs it and notes its answers. The text of a difference has the smallest input found.
#[derive(Clone, Copy)]
pub enum Making {
    Drawn(fn(&mut Draws, &mut Row) -> Result<(), String>),
    /// By the number of the case alone: the fixed part has them all, and there are no new ones.
    Counted(fn(u64, &mut Row) -> Result<(), String>),
}

/// In the order of the table: how many cases of the fixed part, the numbers, the orders, and how a case is made and run.
pub static KINDS: [Kind; 28] = [
    kind(
        "valid-streams",
        400_000,
        &[0],
        &[],
        Drawn(|draws, row| compared(valid_stream(draws), row)),
    )
    .meeting(&[&WHERE_READ, &BY_KI]),
    kind(
        "damaged-streams",
        600_000,
        &[0, 1, 2, 3, 4, 5, 6],
        &[],
        Drawn(|draws, row| compared(damaged_stream(draws), row)),
    )
    .meeting(&[&WHERE_READ, &WHERE_REFUSED, &BY_KI, &[KI_REFUSED]]),
    kind(
        "random-streams",
        800_000,
        &[0, 1, 2, 3, 4, 5, 6],
        &[],
        Drawn(|draws, row| compared(random_stream(draws), row)),
    )
    .meeting(&[&WHERE_READ, &WHERE_REFUSED, &BY_KI, &[KI_REFUSED]]),
    kind(
        "single-items",
        2_000_000,
        &[0, 1, 2, 3, 4, 5, 6, 7, 8],
        &[
            (8, &[1, 2, 3, 4, 5, 6, 7]),
            (1, &[7]),
            (3, &[7]),
            (4, &[5, 7]),
            (6, &[7]),
        ],
        Drawn(|draws, row| compared(single_item(draws), row)),
    )
    .meeting(&[
        &WHERE_READ,
        &WHERE_REFUSED,
        &BY_KI,
        &[KI_REFUSED, MODE_OUTSIDE],
    ]),
    kind(
        "valid-commands",
        600_000,
        &[0],
        &[],
        Drawn(|draws, row| compared(valid_command(draws), row)),
    )
    .meeting(&[&WHERE_WRITTEN, &BY_KI]),
    kind(
        "troubled-commands",
        1_200_000,
        &[0, 7, 8],
        &[(8, &[7])],
        Drawn(|draws, row| compared(troubled_command(draws), row)),
    )
    .meeting(&[&WHERE_WRITTEN, &BY_KI, &[MODE_OUTSIDE]]),
    kind(
        "integer-reports-read",
        800_000,
        &[0, 1, 3, 8],
        &[(3, &[1])],
        Drawn(|draws, row| compared(integer_report_read(draws), row)),
    ),
    kind(
        "string-reports-read",
        800_000,
        &[0, 1, 3, 5, 7, 8],
        &[(3, &[1, 7]), (1, &[7]), (5, &[3])],
        Drawn(|draws, row| compared(string_report_read(draws), row)),
    ),
    kind(
        "integer-reports-written",
        800_000,
        &[0, 7, 8],
        &[(8, &[7])],
        Drawn(|draws, row| compared(integer_report_written(draws), row)),
    ),
    kind(
        "string-reports-written",
        800_000,
        &[0, 7, 8],
        &[(8, &[7])],
        Drawn(|draws, row| compared(string_report_written(draws), row)),
    ),
    kind(
        "beam-records",
        800_000,
        &[0, 8, 11],
        &[(11, &[8])],
        Drawn(|draws, row| compared(beam_records(draws), row)),
    ),
    kind(
        "surfaces",
        800_000,
        &[0, 8, 9, 10, 11],
        &[(11, &[8, 9, 10]), (8, &[9, 10]), (9, &[8, 10])],
        Drawn(|draws, row| compared(surfaces(draws), row)),
    )
    .meeting(&[&MET]),
    kind(
        "stores",
        800_000,
        &[0, 8, 12, 13],
        &[(12, &[8, 13]), (8, &[13])],
        Drawn(|draws, row| compared(definitions(draws), row)),
    ),
    kind(
        "expansions",
        600_000,
        &[0, 7, 8, 12, 14, 15, 16, 17],
        &[
            (12, &[7, 8]),
            (8, &[7, 14, 15, 16]),
            (14, &[7]),
            (15, &[7, 16]),
            (16, &[7]),
            (17, &[7, 16]),
        ],
        Drawn(|draws, row| compared(expansion(draws), row)),
    )
    .meeting(&[&WHERE_EXPANDED, &[MODE_OUTSIDE]]),
    kind(
        "look-ups",
        1_000_000,
        &[0, 8, 12, 14],
        &[(12, &[8])],
        Drawn(|draws, row| compared(look_up(draws), row)),
    ),
    kind(
        "pictures",
        6,
        &[0],
        &[],
        Counted(|number, row| compared(picture(number), row)),
    )
    .meeting(&[&WAYS]),
    kind(
        "every-integer",
        every::INTEGERS,
        &[0, 3, 8],
        &[],
        Counted(every::integer),
    )
    .meeting(&[&[AS_ITSELF, AS_DATA, PAIR_IN_INTEGER]]),
    kind(
        "every-count",
        every::COUNTS,
        &[0, 3, 8],
        &[],
        Counted(every::count),
    )
    .meeting(&[&[AS_ITSELF, AS_DATA, PAIR_IN_STRING]]),
    kind(
        "every-count-read",
        every::COUNTS_READ,
        &[0, 5],
        &[],
        Counted(every::count_read),
    )
    .meeting(&[&[BEFORE_PARAMETER, IN_INTEGER, BEFORE_PLACE]]),
    kind(
        "every-report",
        every::REPORTS,
        &[0, 3, 8],
        &[],
        Counted(every::report),
    ),
    kind(
        "every-report-string",
        every::REPORT_STRINGS,
        &[0, 3, 8],
        &[],
        Counted(every::report_string),
    ),
    kind(
        "every-coordinate",
        every::POINTS,
        &[0],
        &[],
        Counted(every::point),
    )
    .meeting(&[&[AS_ITSELF, AS_DATA, PAIR_IN_POINT]]),
    kind(
        "coordinates-outside",
        every::POINTS_OUTSIDE,
        &[0, 3, 8],
        &[(8, &[3])],
        Counted(every::point_outside),
    )
    .meeting(&[&[AS_ITSELF, AS_DATA, PAIR_IN_POINT]]),
    kind(
        "every-mode",
        every::MODES,
        &[0, 8],
        &[],
        Counted(every::mode),
    )
    .meeting(&[
        &[AS_TEXT, AS_DATA, AN_ITEM, LAST_ITEM, BEFORE_PARAMETER],
        &[AS_ITSELF, PAIR_IN_INTEGER, ITEM_COPIED, MODE_OUTSIDE],
    ]),
    kind(
        "integer-bytes",
        every::SHORT_STRINGS,
        &[0, 1, 3, 4, 6],
        &[],
        Counted(every::integer_bytes),
    )
    .meeting(&[&WHERE_REFUSED, &[AS_DATA, BEFORE_PARAMETER, IN_INTEGER]]),
    kind(
        "point-bytes",
        every::SHORT_STRINGS,
        &[0, 1, 3, 6],
        &[],
        Counted(every::point_bytes),
    )
    .meeting(&[&WHERE_REFUSED, &[AS_DATA, BEFORE_PARAMETER, IN_POINT]]),
    kind(
        "report-bytes",
        every::SHORT_STRINGS,
        &[0, 1, 3],
        &[(3, &[1])],
        Counted(every::report_bytes),
    ),
    kind(
        "six-bytes",
        every::SIX_BYTES,
        &[0, 1, 3, 4, 5, 6],
        &[(4, &[5])],
        Counted(every::six_bytes),
    )
    .meeting(&[
        &WHERE_REFUSED,
        &[
            AS_DATA,
            BEFORE_PARAMETER,
            BEFORE_ENTRY,
            IN_INTEGER,
            IN_POINT,
            IN_PAIR,
        ],
    ]),
];

const fn kind(
    name: &'static str,
    cases: u64,
    numbers: &'static [u8],
    orders: &'static [Order],
    making: Making,
) -> Kind {
    Kind {
        name,
        cases,
        numbers,
        orders,
        met: &[],
        making,
    }
}

impl Kind {
    const fn meeting(self, met: &'static [&'static [Name]]) -> Kind {
        Kind { met, ..self }
    }

    pub fn is_drawn(&self) -> bool {
        matches!(self.making, Drawn(_))
    }
}

/// Runs one case of a kind.
pub fn run_case(kind: usize, seed: u64, case: u64, row: &mut Row) -> Result<(), String> {
    row.cases += 1;
    match KINDS[kind].making {
        Drawn(run) => run(&mut Draws::of_case(seed, kind, case), row),
        Counted(run) => run(case, row),
    }
}

pub fn kind_named(name: &str) -> Option<usize> {
    KINDS.iter().position(|kind| kind.name == name)
}

#[cfg(test)]
mod tests {
    use super::*;

    #[test]
    fn the_kinds_that_the_command_knows_are_these() {
        let line = |kind: &Kind| match kind.making {
            Drawn(_) => format!("{} drawn\n", kind.name),
            Counted(_) => format!("{} {}\n", kind.name, kind.cases),
        };
        let lines: String = KINDS.iter().map(line).collect();
        assert_eq!(lines, include_str!("kinds.txt"));
    }
}
