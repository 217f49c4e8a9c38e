//! The second program's commands.

use second::{captures, lister, parts, vectors};
use std::env;
use std::error::Error;
use std::process::ExitCode;

const COMMANDS: &str = "\
commands:
  second vectors < table    print the lines of docs/VECTORS.md
  second list < bytes       print a line for each item of up to 4,096 bytes
  second listings LISTER    give made captures to the program LISTER, and compare its listings with those of `list`
  second parts              print what is looked up in two stores, as the program `parts` does";

const FAILED: u8 = 1;
const NOT_A_COMMAND: u8 = 2;

fn main() -> ExitCode {
    let arguments: Vec<String> = env::args_os()
        .skip(1)
        .map(|argument| argument.to_string_lossy().into_owned())
        .collect();
    let arguments: Vec<&str> = arguments.iter().map(String::as_str).collect();
    match arguments.as_slice() {
        ["vectors"] => status_of(vectors::run()),
        ["list"] => status_of(lister::run()),
        ["listings", lister] => status_of(captures::run(lister)),
        ["parts"] => status_of(parts::run()),
        _ => {
            eprintln!("{COMMANDS}");
            ExitCode::from(NOT_A_COMMAND)
        }
    }
}

fn status_of(outcome: Result<(), Box<dyn Error>>) -> ExitCode {
    match outcome {
        Ok(()) => ExitCode::SUCCESS,
        Err(error) => {
            eprintln!("second: {error}");
            ExitCode::from(FAILED)
        }
    }
}
