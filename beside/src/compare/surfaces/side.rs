//! One side's record and surface, and its answer to the last call.

use std::fmt;

use second::answers::Refusal;
use second::pixels::Surface;
use second::points::Point;
use second::record::{Record, Size};

use super::calls::{Call, What};
use crate::archive;
use crate::compare::case::in_decimal;
use crate::compare::fence::{Fenced, Junk};

#[derive(PartialEq)]
pub struct Side {
    pub number: u8,
    count: usize,
    pub record: [usize; 7],
    pub surface: Fenced<u8>,
}

impl Side {
    /// The surface holds bytes that are no colours and that differ from their neighbours.
    pub fn before(record: [usize; 7], length: usize) -> Side {
        let bytes: Vec<u8> = (0..length).map(|place| 128 + (place % 127) as u8).collect();
        Side {
            number: 0,
            count: 0,
            record,
            surface: Fenced::holding(&bytes),
        }
    }

    pub fn by_archive(&mut self, call: &Call) {
        let (w, h) = (call.w, call.h);
        self.count = 0;
        self.number = match &call.what {
            What::Fresh => {
                // Here the record is an answer slot.
                self.record = [usize::JUNK; 7];
                archive::fresh(w, h, &mut self.record)
            }
            What::Bits(integers) => archive::set_bits(w, h, &mut self.record, *integers),
            What::Viewport(corners) => archive::set_viewport(w, h, &mut self.record, *corners),
            What::Beam(to) => archive::set_beam(w, h, &mut self.record, *to),
            What::Step => archive::step(w, h, &mut self.record),
            What::Raster { .. } | What::Runs { .. } => self.draw_by_archive(call),
        };
    }

    fn draw_by_archive(&mut self, call: &Call) -> u8 {
        let (w, h) = (call.w, call.h);
        self.count = usize::JUNK;
        let record = &mut self.record;
        let count = &mut self.count;
        let lent = &mut self.surface.lent()[..call.lent];
        match &call.what {
            What::Raster { n, characters } => {
                archive::draw_raster(lent, w, h, record, *n, characters, count)
            }
            What::Runs { codes } => archive::draw_runs(lent, w, h, record, codes, count),
            _ => unreachable!("the other calls draw nothing"),
        }
    }

    pub fn by_second(&mut self, call: &Call) {
        let mut record = record_of(self.record);
        let answer = self.answer_of_second(&mut record, call);
        self.record = record.fields();
        // "Counts with a refusal are 0."
        (self.number, self.count) = match answer {
            Ok(count) => (0, count),
            Err(refusal) => (refusal.number() as u8, 0),
        };
    }

    fn answer_of_second(&mut self, record: &mut Record, call: &Call) -> Result<usize, Refusal> {
        let size = Size {
            w: call.w,
            h: call.h,
        };
        let mut surface = Surface {
            bytes: &mut self.surface.lent()[..call.lent],
            size,
        };
        match &call.what {
            What::Fresh => {
                // "Where a fresh record is refused, all its fields are 0."
                *record = Record::default();
                *record = Record::fresh(size)?;
            }
            What::Bits(integers) => record.set_bits(size, *integers)?,
            What::Viewport([x, y, other_x, other_y]) => {
                record.set_viewport(size, [point(*x, *y), point(*other_x, *other_y)])?;
            }
            What::Beam([x, y]) => record.set_beam(size, point(*x, *y))?,
            What::Step => record.step(size)?,
            What::Raster { n, characters } => return surface.write_raster(record, *n, characters),
            What::Runs { codes } => return surface.write_runs(record, codes),
        }
        Ok(0)
    }
}

/// A coordinate below 0 lies outside every surface, as does the greatest.
fn point(x: i32, y: i32) -> Point {
    let coordinate = |number: i32| u32::try_from(number).unwrap_or(u32::MAX);
    Point {
        x: coordinate(x),
        y: coordinate(y),
    }
}

pub fn record_of([bits, left, bottom, right, top, x, y]: [usize; 7]) -> Record {
    Record {
        bits,
        left,
        bottom,
        right,
        top,
        x,
        y,
    }
}

impl fmt::Display for Side {
    fn fmt(&self, text: &mut fmt::Formatter) -> fmt::Result {
        write!(
            text,
            "returns {}; count {}; record {}; surface {}",
            self.number,
            self.count,
            in_decimal(&self.record),
            self.surface
        )
    }
}
