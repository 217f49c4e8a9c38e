//! The subcommand `listings`: made captures, given to another lister, whose listings must be those of this one, byte for byte.

use std::error::Error;
use std::fmt;
use std::io::Write;
use std::process::{Command, Stdio};

use crate::draws::Draws;
use crate::lister::{listing_of, MOST_BYTES};
use crate::made::{made_in, made_stream, strewn};
use crate::parameters::{DEL, ESC};
use crate::remembered::DelMode;

/// How many captures of each sort.
const CAPTURES: u64 = 60;

/// How many streams a capture is made of, in turn: none, some, and as many as have more bytes than are listed.
const STREAMS: [usize; 6] = [0, 1, 2, 5, 20, 80];

const NOISE: [u8; 32] = [
    27, 63, 127, 75, 76, 78, 82, 77, 73, 65, 70, 71, 72, 83, 68, 80, 84, 81, 32, 33, 48, 49, 63,
    64, 65, 95, 96, 97, 112, 126, 128, 10,
];

type Make = fn(&mut Draws) -> Vec<u8>;

/// Each sort by the way it comes to a stream.
const SORTS: [Make; 8] = [
    made_stream,
    cut,
    damaged,
    escapes,
    pairs,
    noise,
    padded,
    padded_noise,
];

/// What begins a line: text, a DEL that is an item, a command, a refused one, the end of the input, or that more follows.
const LINES: [char; 6] = ['T', 'D', 'C', 'R', 'E', 'M'];

const KI_0: [u8; 4] = [ESC, b'K', b'I', 48];
const KI_1: [u8; 4] = [ESC, b'K', b'I', 49];

/// How many captures were listed, and how many lines of each letter came of them.
#[derive(Debug, Default, PartialEq, Eq)]
struct Tally {
    captures: usize,
    lines: [usize; LINES.len()],
}

/// Gives every capture to the lister at a path, as standard input.
pub fn run(lister: &str) -> Result<(), Box<dyn Error>> {
    let mut tally = Tally::default();
    for capture in all_captures() {
        let ours = listing_of(&capture);
        let theirs = listing_by(lister, &capture)?;
        if theirs != ours.as_bytes() {
            return Err(difference(&capture, &ours, &theirs).into());
        }
        tally.take(&ours);
    }
    println!("{tally}");
    Ok(())
}

fn listing_by(lister: &str, capture: &[u8]) -> Result<Vec<u8>, Box<dyn Error>> {
    let mut program = Command::new(lister)
        .stdin(Stdio::piped())
        .stdout(Stdio::piped())
        .spawn()
        .map_err(|error| format!("{lister} cannot be run: {error}"))?;
    // A pipe holds every capture whole, so nobody waits for the other. Dropped behind the line, it ends the input.
    program.stdin.take().ok_or("no input")?.write_all(capture)?;
    let output = program.wait_with_output()?;
    match output.status.success() {
        true => Ok(output.stdout),
        false => Err(format!("{lister} ended with {}", output.status).into()),
    }
}

fn difference(capture: &[u8], ours: &str, theirs: &[u8]) -> String {
    let bytes: Vec<String> = capture.iter().map(u8::to_string).collect();
    let theirs = String::from_utf8_lossy(theirs);
    let bytes = bytes.join(" ");
    format!("the listings differ for the bytes {bytes}\nours:\n{ours}\ntheirs:\n{theirs}")
}

impl Tally {
    fn take(&mut self, listing: &str) {
        self.captures += 1;
        for (count, letter) in self.lines.iter_mut().zip(LINES) {
            *count += listing
                .lines()
                .filter(|line| line.starts_with(letter))
                .count();
        }
    }
}

impl fmt::Display for Tally {
    fn fmt(&self, line: &mut fmt::Formatter) -> fmt::Result {
        write!(line, "{} captures are listed alike:", self.captures)?;
        for (letter, count) in LINES.iter().zip(self.lines) {
            write!(line, " {count} {letter}")?;
        }
        Ok(())
    }
}

fn all_captures() -> impl Iterator<Item = Vec<u8>> {
    (0..).zip(SORTS).flat_map(|(sort, make)| {
        (0..CAPTURES).map(move |number| {
            let mut draws = Draws::starting_with(1 + CAPTURES * sort + number);
            capture(&mut draws, make, number as usize)
        })
    })
}

/// The longest ones end around the last byte that is listed.
fn capture(draws: &mut Draws, make: Make, number: usize) -> Vec<u8> {
    let streams = STREAMS[number % STREAMS.len()];
    let mut capture: Vec<u8> = (0..streams).flat_map(|_| make(draws)).collect();
    capture.truncate(MOST_BYTES - 4 + number / STREAMS.len());
    capture
}

fn cut(draws: &mut Draws) -> Vec<u8> {
    let mut stream = made_stream(draws);
    let left = draws.draw_below(stream.len() + 1);
    stream.truncate(left);
    stream
}

fn damaged(draws: &mut Draws) -> Vec<u8> {
    changed(draws, Draws::draw_byte)
}

fn escapes(draws: &mut Draws) -> Vec<u8> {
    changed(draws, |_| ESC)
}

/// A made stream with four of its bytes changed.
fn changed(draws: &mut Draws, byte: fn(&mut Draws) -> u8) -> Vec<u8> {
    let mut stream = made_stream(draws);
    for _ in 0..4 {
        let place = draws.draw_below(stream.len());
        stream[place] = byte(draws);
    }
    stream
}

/// Every DEL, and one in four of the other bytes above 95, becomes the pair. Text is not spared, so a pair may also stand where it is
/// none.
fn pairs(draws: &mut Draws) -> Vec<u8> {
    let mut paired = Vec::new();
    for byte in made_stream(draws) {
        if byte == DEL || byte > 95 && draws.draw_from(4) == 0 {
            paired.extend([ESC, 63]);
        } else {
            paired.push(byte);
        }
    }
    paired
}

fn noise(draws: &mut Draws) -> Vec<u8> {
    let length = draws.draw_from(200);
    (0..length)
        .map(|_| NOISE[draws.draw_below(NOISE.len())])
        .collect()
}

/// After KI 1 a stream of that mode with DELs everywhere, cut now and then. Behind every second one the mode stays.
fn padded(draws: &mut Draws) -> Vec<u8> {
    let stream = made_in(draws, DelMode::Filler);
    let mut stream = strewn(draws, &stream);
    if draws.draw_from(3) == 0 {
        let left = draws.draw_below(stream.len() + 1);
        stream.truncate(left);
    }
    between_modes(draws, &stream)
}

fn padded_noise(draws: &mut Draws) -> Vec<u8> {
    let stream = noise(draws);
    let stream = strewn(draws, &stream);
    between_modes(draws, &stream)
}

fn between_modes(draws: &mut Draws, stream: &[u8]) -> Vec<u8> {
    let end: &[u8] = match draws.draw_from(2) {
        0 => &KI_0,
        _ => &[],
    };
    [&KI_1, stream, end].concat()
}

#[cfg(test)]
mod tests {
    use super::*;

    #[test]
    fn captures_are_empty_short_and_around_the_most_that_is_listed() {
        let lengths: Vec<usize> = all_captures().map(|capture| capture.len()).collect();
        assert_eq!(lengths.len(), 480);
        for length in [0, 4095, 4096, 4097, 4101] {
            assert!(lengths.contains(&length), "{length}");
        }
        assert!(lengths.iter().any(|length| (1..100).contains(length)));
    }

    #[test]
    fn captures_hold_del_as_itself_and_as_the_pair() {
        let count = |part: &[u8]| {
            let holds = |capture: &Vec<u8>| capture.windows(part.len()).any(|there| there == part);
            all_captures().filter(holds).count()
        };
        assert!(count(&[127]) > 50);
        assert!(count(&[ESC, 63]) > 50);
    }

    #[test]
    fn every_sort_of_line_comes_of_them() {
        let mut tally = Tally::default();
        for capture in all_captures() {
            tally.take(&listing_of(&capture));
        }
        assert_eq!(tally.lines[4] + tally.lines[5], 480);
        assert!(tally.lines.iter().all(|&count| count >= 25), "{tally}");
    }

    #[test]
    fn the_lines_are_counted_by_their_letters() {
        let mut tally = Tally::default();
        tally.take(&listing_of(b"A\x1bKA0"));
        tally.take(&listing_of(b"\x1b"));
        tally.take(&listing_of(b"\x1bKI1\x7f"));
        let line = "3 captures are listed alike: 1 T 1 D 2 C 1 R 3 E 0 M";
        assert_eq!(tally.to_string(), line);
    }

    #[test]
    fn another_listing_is_no_listing() {
        assert!(run("/bin/cat").is_err());
        assert!(run("/bin/false").is_err());
        assert!(run("/no/such/lister").is_err());
    }
}
