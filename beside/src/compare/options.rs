//! The command line. `./compare` looks at it before anything is built, by `usage.txt` and `kinds.txt`, and lets nothing through that is refused here.

use super::kinds::{kind_named, KINDS};

pub const USAGE: &str = include_str!("usage.txt");

#[derive(Debug, PartialEq)]
pub enum Options {
    Fixed,
    Minutes { minutes: f64, seed: Option<u64> },
    One { seed: u64, kind: usize, case: u64 },
    Help,
}

/// What stands behind each name, where it was given.
#[derive(Default)]
struct Given {
    minutes: Option<f64>,
    seed: Option<u64>,
    kind: Option<usize>,
    case: Option<u64>,
}

pub fn parse(arguments: &[String]) -> Result<Options, String> {
    if let [only] = arguments {
        if only == "-h" || only == "--help" {
            return Ok(Options::Help);
        }
    }
    let given = given(arguments)?;
    match (given.minutes, given.seed, given.kind, given.case) {
        (None, None, None, None) => Ok(Options::Fixed),
        (Some(minutes), seed, None, None) => Ok(Options::Minutes { minutes, seed }),
        (None, Some(seed), Some(kind), Some(case)) => match &KINDS[kind] {
            counted if !counted.is_drawn() && case >= counted.cases => Err(format!(
                "{} has {} cases, the first of which is 0",
                counted.name, counted.cases
            )),
            _ => Ok(Options::One { seed, kind, case }),
        },
        _ => Err("these arguments do not go together".to_string()),
    }
}

fn given(arguments: &[String]) -> Result<Given, String> {
    let mut given = Given::default();
    for pair in arguments.chunks(2) {
        let [name, value] = pair else {
            return Err(format!(
                "{} needs something behind it, or is not known",
                pair[0]
            ));
        };
        match name.as_str() {
            "--minutes" => given.minutes = Some(minutes(value)?),
            "--seed" => given.seed = Some(whole(value)?),
            "--case" => given.case = Some(whole(value)?),
            "--kind" => given.kind = Some(kind(value)?),
            _ => return Err(format!("{name} is not known")),
        }
    }
    Ok(given)
}

fn whole(value: &str) -> Result<u64, String> {
    let message = |_| format!("{value} is no whole number from 0 on");
    value.parse().map_err(message)
}

/// A million minutes are some two years.
fn minutes(value: &str) -> Result<f64, String> {
    match value.parse() {
        Ok(minutes) if minutes > 0.0 && minutes <= 1e6 => Ok(minutes),
        _ => Err(format!("{value} is no number of minutes")),
    }
}

fn kind(value: &str) -> Result<usize, String> {
    kind_named(value).ok_or_else(|| {
        let names: Vec<&str> = KINDS.iter().map(|kind| kind.name).collect();
        format!("{value} is no kind of cases; they are {}", names.join(" "))
    })
}

#[cfg(test)]
mod tests {
    use super::*;

    fn parsed(line: &str) -> Result<Options, String> {
        let arguments: Vec<String> = line.split_whitespace().map(str::to_string).collect();
        parse(&arguments)
    }

    #[test]
    fn what_may_be_asked_for() {
        assert_eq!(parsed(""), Ok(Options::Fixed));
        assert_eq!(parsed("--help"), Ok(Options::Help));
        let (minutes, seed) = (10.0, None);
        assert_eq!(
            parsed("--minutes 10"),
            Ok(Options::Minutes { minutes, seed })
        );
        let (minutes, seed) = (0.5, Some(7));
        let half = Ok(Options::Minutes { minutes, seed });
        assert_eq!(parsed("--seed 7 --minutes 0.5"), half);
        let one = Options::One {
            seed: 7,
            kind: 1,
            case: 3,
        };
        assert_eq!(parsed("--seed 7 --kind damaged-streams --case 3"), Ok(one));
    }

    #[test]
    fn what_may_not() {
        for line in [
            "--minutes",
            "--minutes 0",
            "--minutes -1",
            "--minutes x",
            "--minutes NaN",
            "--seed 7",
            "--seed 7 --kind stores",
            "--minutes 1 --kind stores",
            "--seed -1 --minutes 1",
            "--seed 7 --kind nonsense --case 1",
            "--seed 7 --kind pictures --case 6",
            "10",
            "--hours 1",
        ] {
            assert!(parsed(line).is_err(), "{line}");
        }
    }
}
