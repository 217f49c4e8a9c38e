//! The table, and the page docs/BENCHMARKS.md.

use super::depths::Depth;
use super::job::Measured;
use super::timing::Times;

pub struct Row {
    pub name: &'static str,
    pub size: &'static str,
    pub unit: &'static str,
    pub full: Times,
    /// The archive's nanoseconds to a unit, at half the size and at the full size.
    pub per_unit: [f64; 2],
}

impl Row {
    pub fn of(measured: &Measured, half: Times, full: Times) -> Row {
        Row {
            name: measured.name,
            size: measured.size,
            unit: measured.unit,
            full,
            per_unit: [
                half.archive / measured.half.units() as f64,
                full.archive / measured.full.units() as f64,
            ],
        }
    }

    fn line(&self) -> String {
        let Row {
            name,
            size,
            unit,
            full,
            per_unit: [at_half, at_full],
        } = self;
        let Times { archive, plain } = full;
        let ratio = full.ratio();
        format!("| {name} | {size} | {archive:.0} | {plain:.0} | {ratio:.2} | {unit} | {at_half:.2} | {at_full:.2} |")
    }
}

const HEAD: &str = "\
| job | size | archive, ns | plain, ns | ratio | unit | archive, ns a unit at half the size | at this size |
|---|---|---:|---:|---:|---|---:|---:|
";

pub fn table(rows: &[Row]) -> String {
    let lines: String = rows.iter().map(|row| row.line() + "\n").collect();
    HEAD.to_string() + &lines
}

fn stack_table(depths: &[Depth]) -> String {
    let line = |depth: &Depth| format!("| {} | {} |\n", depth.calls, depth.bytes);
    let lines: String = depths.iter().map(line).collect();
    "| calls | bytes of stack |\n|---|---:|\n".to_string() + &lines
}

/// The whole page; `undefined` are the symbols that the archive takes from elsewhere.
pub fn page(rows: &[Row], depths: &[Depth], undefined: &str) -> String {
    let tables = [("TIMES\n", table(rows)), ("DEPTHS\n", stack_table(depths))];
    let mut page = PAGE
        .replace("UNDEFINED", undefined)
        .replace("MACHINE", std::env::consts::ARCH);
    for (mark, table) in tables {
        page = page.replace(mark, &table);
    }
    page
}

const PAGE: &str = include_str!("page.md");
