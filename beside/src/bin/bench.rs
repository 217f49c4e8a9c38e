//! Measures the archive beside the plain program. With two arguments, the path of a page and the symbols that the archive takes from
//! elsewhere, it writes the page too.

use beside::bench::job::Measured;
use beside::bench::page::{page, table, Row};
use beside::bench::timing::measure;
use beside::bench::{defining, depths, expanding, looking_up, painting, reading, writing};
use std::fs::{remove_file, rename, write};
use std::io::Write;
use std::process::ExitCode;

fn main() -> ExitCode {
    let arguments: Vec<String> = std::env::args().skip(1).collect();
    match run(&arguments) {
        Ok(()) => ExitCode::SUCCESS,
        Err(trouble) => {
            eprintln!("bench: {trouble}");
            ExitCode::FAILURE
        }
    }
}

fn run(arguments: &[String]) -> Result<(), String> {
    let mut rows = Vec::new();
    let jobs = all_jobs();
    let count = jobs.len();
    for (number, mut job) in (1..).zip(jobs) {
        eprintln!("bench: {number} of {count}: {}, {}", job.name, job.size);
        rows.push(measured(&mut job)?);
    }
    eprintln!("bench: the stack of each call");
    let depths = depths::all()?;
    let text = table(&rows) + &highest(&rows);
    std::io::stdout()
        .write_all(text.as_bytes())
        .map_err(|e| format!("standard output cannot be written: {e}"))?;
    if let [path, undefined] = arguments {
        replace(path, &page(&rows, &depths, undefined))
            .map_err(|e| format!("{path} cannot be written: {e}"))?;
        eprintln!("bench: the page is in {path}");
    }
    Ok(())
}

fn highest(rows: &[Row]) -> String {
    let highest = rows
        .iter()
        .max_by(|a, b| a.full.ratio().total_cmp(&b.full.ratio()));
    highest.map_or(String::new(), |row| {
        let ratio = row.full.ratio();
        format!("\nhighest ratio: {ratio:.2}, {}, {}\n", row.name, row.size)
    })
}

/// The page that stands is replaced by a whole one, or left.
fn replace(path: &str, page: &str) -> std::io::Result<()> {
    let beside = format!("{path}.new");
    let replaced = write(&beside, page).and_then(|()| rename(&beside, path));
    if replaced.is_err() {
        let _ = remove_file(&beside);
    }
    replaced
}

fn all_jobs() -> Vec<Measured> {
    let jobs = [
        reading::jobs(),
        writing::jobs(),
        painting::jobs(),
        defining::jobs(),
        looking_up::jobs(),
        expanding::jobs(),
    ];
    jobs.into_iter().flatten().collect()
}

/// The answers are compared before anything is timed.
fn measured(job: &mut Measured) -> Result<Row, String> {
    let (name, size) = (job.name, job.size);
    for side in [&mut job.half, &mut job.full] {
        side.compare()
            .map_err(|differ| format!("{name}, {size}: the two programs differ at {differ}"))?;
    }
    let half = measure(job.half.as_mut());
    let full = measure(job.full.as_mut());
    Ok(Row::of(job, half, full))
}
