//! `./compare`: the archive and the second program on the same inputs.

use std::io::Write;
use std::process::ExitCode;
use std::time::{SystemTime, UNIX_EPOCH};

use beside::compare::options::{parse, Options, USAGE};
use beside::compare::running::{fixed_part, for_minutes, one_case};

fn main() -> ExitCode {
    let arguments: Vec<String> = std::env::args().skip(1).collect();
    let report = match parse(&arguments) {
        Err(message) => {
            eprint!("compare: {message}\n{USAGE}");
            return ExitCode::from(2);
        }
        Ok(Options::Help) => {
            print!("{USAGE}");
            return ExitCode::SUCCESS;
        }
        Ok(Options::Fixed) => fixed_part(),
        Ok(Options::Minutes { minutes, seed }) => {
            let seed = seed.unwrap_or_else(seed_of_the_clock);
            // At once, so that a run that is broken off can be repeated.
            eprintln!("compare: seed {seed}");
            for_minutes(minutes, seed)
        }
        Ok(Options::One { seed, kind, case }) => one_case(seed, kind, case),
    };
    if let Err(trouble) = writeln!(std::io::stdout(), "{}", report.text) {
        eprintln!("compare: standard output cannot be written: {trouble}");
        return ExitCode::FAILURE;
    }
    ExitCode::from(if report.is_good { 0 } else { 1 })
}

fn seed_of_the_clock() -> u64 {
    let since = SystemTime::now().duration_since(UNIX_EPOCH);
    since.map_or(1, |since| since.as_millis() as u64)
}
