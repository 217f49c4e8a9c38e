//! The pixel writes, RP and RL.

use super::integers::MOST_ENTRIES;
use super::record::{is_size, Record};
use super::refusals::Refusal;

/// Ends a row in RP, and is none of the characters that N needs.
const END_OF_ROW: i32 = 96;

/// RP: `n` pixels by raster characters; their number is handed back.
pub fn draw_raster(
    surface: &mut [u8],
    w: usize,
    h: usize,
    record: &mut Record,
    n: i32,
    characters: &[i32],
) -> Result<usize, Refusal> {
    check_surface(surface, w, h, record)?;
    if !is_number(n) || characters.len() > MOST_ENTRIES {
        return Err(Refusal::NotValid);
    }
    let total = n as usize;
    let per_character = 6 / record.bits;
    if naming(characters) != Some(total.div_ceil(per_character)) {
        return Err(Refusal::RasterCharacters);
    }
    let mut beam = *record;
    let mut left = total;
    for &character in characters {
        if character == END_OF_ROW {
            beam.end_row();
            continue;
        }
        let named = left.min(per_character);
        lay_character(surface, w, h, &mut beam, character as usize - 32, named);
        left -= named;
    }
    *record = beam;
    Ok(total)
}

/// RL: runs by codes; the number of their pixels is handed back.
pub fn draw_runs(
    surface: &mut [u8],
    w: usize,
    h: usize,
    record: &mut Record,
    codes: &[i32],
) -> Result<usize, Refusal> {
    check_surface(surface, w, h, record)?;
    if codes.len() > MOST_ENTRIES || !codes.iter().all(|&code| is_number(code)) {
        return Err(Refusal::NotValid);
    }
    let mask = (1 << record.bits) - 1;
    let mut beam = *record;
    let mut total = 0;
    for &code in codes {
        let length = code as usize >> record.bits;
        for _ in 0..length {
            lay(surface, w, h, &mut beam, (code & mask) as u8);
        }
        total += length;
    }
    *record = beam;
    Ok(total)
}

/// 11, 8 for the record, 9.
fn check_surface(surface: &[u8], w: usize, h: usize, record: &Record) -> Result<(), Refusal> {
    if !is_size(w, h) || surface.len() != w * h {
        return Err(Refusal::SurfaceSize);
    }
    if !record.is_valid(w, h) {
        return Err(Refusal::NotValid);
    }
    if record.bits == 0 {
        return Err(Refusal::BitsNotSet);
    }
    Ok(())
}

fn is_number(value: i32) -> bool {
    (0..=32767).contains(&value)
}

/// How many characters name pixels, where all are allowed.
fn naming(characters: &[i32]) -> Option<usize> {
    let mut count = 0;
    for &character in characters {
        match character {
            32..=95 => count += 1,
            END_OF_ROW => {}
            _ => return None,
        }
    }
    Some(count)
}

/// The first `n` pixels of six bits, from the top bits down.
fn lay_character(surface: &mut [u8], w: usize, h: usize, beam: &mut Record, six: usize, n: usize) {
    let mask = (1 << beam.bits) - 1;
    let mut shift = 6;
    for _ in 0..n {
        shift -= beam.bits;
        lay(surface, w, h, beam, (six >> shift & mask) as u8);
    }
}

/// A pixel at the beam, which goes one place on. The lent bytes hold the top row first.
fn lay(surface: &mut [u8], w: usize, h: usize, beam: &mut Record, colour: u8) {
    surface[(h - 1 - beam.y) * w + beam.x] = colour;
    beam.step();
}

#[cfg(test)]
mod tests {
    use super::*;

    const THREE_BY_TWO: Record = Record {
        bits: 3,
        left: 0,
        bottom: 0,
        right: 2,
        top: 1,
        x: 0,
        y: 1,
    };

    #[test]
    fn the_pixels_of_the_sheet() {
        let mut surface = [9; 6];
        let mut record = THREE_BY_TWO;
        let drawn = draw_raster(&mut surface, 3, 2, &mut record, 4, &[42, 60]);
        assert_eq!(drawn, Ok(4));
        assert_eq!(surface, [1, 2, 3, 4, 9, 9]);
        assert_eq!((record.x, record.y), (1, 0));
        let drawn = draw_runs(&mut surface, 3, 2, &mut record, &[21]);
        assert_eq!(drawn, Ok(2));
        assert_eq!(surface, [1, 2, 3, 4, 5, 5]);
        assert_eq!((record.x, record.y), (0, 1));
    }

    #[test]
    fn ends_of_row_pass_places_over() {
        let mut surface = [9; 6];
        let mut record = THREE_BY_TWO;
        let drawn = draw_raster(&mut surface, 3, 2, &mut record, 3, &[42, 96, 60, 96]);
        assert_eq!(drawn, Ok(3));
        assert_eq!(surface, [1, 2, 9, 3, 9, 9]);
        assert_eq!((record.x, record.y), (0, 1));
        // From a left edge a whole row is passed over, and behind the last comes the top.
        let drawn = draw_raster(&mut surface, 3, 2, &mut record, 1, &[96, 60, 96, 96]);
        assert_eq!(drawn, Ok(1));
        assert_eq!(surface, [1, 2, 9, 3, 9, 9]);
        assert_eq!((record.x, record.y), (0, 0));
        assert_eq!(
            draw_raster(&mut surface, 3, 2, &mut record, 0, &[96]),
            Ok(0)
        );
        assert_eq!(record, THREE_BY_TWO);
    }

    #[test]
    fn refusals_in_their_order() {
        let mut surface = [9; 6];
        let mut unset = THREE_BY_TWO;
        unset.bits = 0;
        let drawn = draw_runs(&mut surface, 3, 3, &mut unset, &[-1]);
        assert_eq!(drawn, Err(Refusal::SurfaceSize));
        let drawn = draw_runs(&mut surface, 3, 2, &mut unset, &[-1]);
        assert_eq!(drawn, Err(Refusal::BitsNotSet));
        unset.x = 3;
        let drawn = draw_runs(&mut surface, 3, 2, &mut unset, &[-1]);
        assert_eq!(drawn, Err(Refusal::NotValid));
        let mut record = THREE_BY_TWO;
        let drawn = draw_runs(&mut surface, 3, 2, &mut record, &[21, -1]);
        assert_eq!(drawn, Err(Refusal::NotValid));
        let drawn = draw_raster(&mut surface, 3, 2, &mut record, -1, &[31]);
        assert_eq!(drawn, Err(Refusal::NotValid));
        let drawn = draw_raster(&mut surface, 3, 2, &mut record, 0, &[96; 257]);
        assert_eq!(drawn, Err(Refusal::NotValid));
        for wrong in [&[32][..], &[32, 96], &[32, 96, 32, 32], &[32, 96, 97]] {
            let drawn = draw_raster(&mut surface, 3, 2, &mut record, 3, wrong);
            assert_eq!(drawn, Err(Refusal::RasterCharacters));
        }
        assert_eq!((surface, record), ([9; 6], THREE_BY_TWO));
    }
}
