//! The streams that are read.

use second::commands::{spell_command, Command, Value};
use second::draws::Draws;
use second::made::{made_in, strewn};
use second::parameters::DEL;
use second::remembered::{DelMode, Remembered};

/// Of so many pieces one is damaged.
const DAMAGED: usize = 8;
const DAMAGES: usize = 2;
const ENTRIES: usize = 256;

/// All commands and text, as the second program makes them, with a line of text between and one piece in eight damaged. All in mode 0.
pub fn mixed_stream(length: usize) -> Vec<u8> {
    let draws = &mut Draws::starting_with(1);
    pieces(length, || mixed_piece(draws, DelMode::Data))
}

/// The same in mode 1, and with no plain 127 in it.
pub fn mode_1_stream(length: usize) -> Vec<u8> {
    let draws = &mut Draws::starting_with(1);
    pieces(length, || {
        let mut piece = mixed_piece(draws, DelMode::Filler);
        piece.retain(|&byte| byte != DEL);
        piece
    })
}

/// The same in mode 1, with DELs everywhere.
pub fn strewn_stream(length: usize) -> Vec<u8> {
    let draws = &mut Draws::starting_with(1);
    pieces(length, || {
        let piece = mixed_piece(draws, DelMode::Filler);
        strewn(draws, &piece)
    })
}

/// One damaged made stream among eight, a line of text behind each.
fn mixed_piece(draws: &mut Draws, mode: DelMode) -> Vec<u8> {
    let mut piece = Vec::new();
    for number in 1..=DAMAGED {
        let mut bytes = made_in(draws, mode);
        if number == DAMAGED {
            damage(&mut bytes, draws);
        }
        piece.extend(bytes);
        piece.extend(b"A line of text.\r\n");
    }
    piece
}

fn pieces(length: usize, mut piece: impl FnMut() -> Vec<u8>) -> Vec<u8> {
    let mut stream = Vec::new();
    while stream.len() < length {
        stream.extend(piece());
    }
    stream.truncate(length);
    stream
}

fn damage(bytes: &mut [u8], draws: &mut Draws) {
    for _ in 0..DAMAGES {
        let place = draws.draw_below(bytes.len());
        bytes[place] = draws.draw_byte();
    }
}

/// RD, RL and KD in turn, each with 256 integers of one to three bytes.
pub fn array_stream(length: usize) -> Vec<u8> {
    let mut draws = Draws::starting_with(2);
    repeated(length, |turn| {
        let array = Value::Array((0..ENTRIES).map(|_| draw_integer(&mut draws)).collect());
        match turn % 3 {
            0 => (*b"RD", vec![array]),
            1 => (*b"RL", vec![array]),
            _ => (*b"KD", vec![Value::Integer(turn as i32 % 32768), array]),
        }
    })
}

/// LT and RP in turn, each with 256 characters.
pub fn string_stream(length: usize) -> Vec<u8> {
    let mut draws = Draws::starting_with(3);
    repeated(length, |turn| {
        let string = (0..ENTRIES)
            .map(|_| 32 + draws.draw_from(96) as u8)
            .collect();
        match turn % 2 {
            0 => (*b"LT", vec![Value::String(string)]),
            _ => (*b"RP", vec![Value::Integer(512), Value::String(string)]),
        }
    })
}

fn repeated(length: usize, mut command: impl FnMut(usize) -> ([u8; 2], Vec<Value>)) -> Vec<u8> {
    let mut turns = 0..;
    pieces(length, || {
        let turn = turns.next().expect("there is always another");
        let (letters, values) = command(turn);
        let spelling = spell_command(&Command { letters, values }, Remembered::FRESH);
        spelling.expect("only what can be written is made")
    })
}

fn draw_integer(draws: &mut Draws) -> i32 {
    let most = [16, 1024, 32768][draws.draw_below(3)];
    let magnitude = draws.draw_from(most) as i32;
    match draws.draw_from(2) {
        0 => magnitude,
        _ => -magnitude,
    }
}

#[cfg(test)]
mod tests {
    use super::*;
    use second::items::{items_from, Item};

    /// How many items there are, and how many of them are DELs. The mode is that of the first item all along.
    fn items_in(mode: DelMode, stream: &[u8]) -> (usize, usize) {
        let mut counts = (0, 0);
        for read in items_from(stream, Remembered::fresh_in(mode)) {
            assert_eq!(read.remembered.mode, mode);
            counts.0 += 1;
            counts.1 += usize::from(matches!(read.item, Item::Del { .. }));
        }
        counts
    }

    #[test]
    fn each_stream_stays_in_its_mode() {
        const LENGTH: usize = 1_000_000;
        let (items, dels) = items_in(DelMode::Data, &mixed_stream(LENGTH));
        assert!(items > 100_000 && dels == 0);
        let (items, dels) = items_in(DelMode::Filler, &mode_1_stream(LENGTH));
        assert!(items > 100_000 && dels == 0);
        let (items, dels) = items_in(DelMode::Filler, &strewn_stream(LENGTH));
        assert!(items > 100_000 && dels > 10_000);
    }
}
