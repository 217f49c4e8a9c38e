//! What the pixel writes draw: a picture by rasters, the same by runs, and a filled surface.

use crate::picture::colours;

/// A write: N, which runs do not have, and its characters or codes.
pub struct Write {
    pub n: Option<i32>,
    pub entries: Vec<i32>,
}

const BITS: u32 = 3;
const MOST_ENTRIES: usize = 256;
const LONGEST_RUN: usize = 4095;

/// The picture by RP, three bits, 256 characters to a write.
pub fn raster_writes(w: usize, h: usize) -> Vec<Write> {
    let write = |part: &[u8]| Write {
        n: Some(part.len() as i32),
        entries: part.chunks(2).map(character).collect(),
    };
    colours(w, h).chunks(2 * MOST_ENTRIES).map(write).collect()
}

fn character(pair: &[u8]) -> i32 {
    let low = pair.get(1).copied().unwrap_or(0);
    32 + (i32::from(pair[0]) << BITS) + i32::from(low)
}

/// The picture by RL, three bits, 256 codes to a write.
pub fn run_writes(w: usize, h: usize) -> Vec<Write> {
    let colours = colours(w, h);
    let runs = colours.chunk_by(|a, b| a == b);
    let codes: Vec<i32> = runs.map(|run| code(run.len(), run[0])).collect();
    grouped(&codes)
}

/// One colour after the other in the longest runs, until the surface is full.
pub fn filling_writes(w: usize, h: usize) -> Vec<Write> {
    let mut left = w * h;
    let mut codes = Vec::new();
    while left > 0 {
        let length = left.min(LONGEST_RUN);
        codes.push(code(length, codes.len() as u8 % 8));
        left -= length;
    }
    grouped(&codes)
}

fn code(length: usize, colour: u8) -> i32 {
    ((length as i32) << BITS) + i32::from(colour)
}

fn grouped(codes: &[i32]) -> Vec<Write> {
    let write = |part: &[i32]| Write {
        n: None,
        entries: part.to_vec(),
    };
    codes.chunks(MOST_ENTRIES).map(write).collect()
}
