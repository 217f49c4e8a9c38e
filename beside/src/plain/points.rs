//! Points: read from the last one, and spelled with all left out that may be.

use super::refusals::{refused, ReadingRefused, Refusal};
use super::wire::Reader;

#[derive(Clone, Copy, Debug, PartialEq, Eq)]
pub struct Point {
    pub x: u16,
    pub y: u16,
}

impl Point {
    pub const FRESH: Point = Point { x: 0, y: 0 };

    pub fn is_inside(self) -> bool {
        self.x <= 4095 && self.y <= 4095
    }
}

struct PointBytes {
    hi_y: u8,
    extra: u8,
    lo_y: u8,
    hi_x: u8,
    lo_x: u8,
}

impl PointBytes {
    fn of(point: Point) -> PointBytes {
        let Point { x, y } = point;
        PointBytes {
            hi_y: 32 + (y >> 7) as u8,
            extra: 96 + ((y & 3) << 2 | x & 3) as u8,
            lo_y: 96 + (y >> 2 & 31) as u8,
            hi_x: 32 + (x >> 7) as u8,
            lo_x: 64 + (x >> 2 & 31) as u8,
        }
    }

    fn point(&self) -> Point {
        Point {
            x: coordinate(self.hi_x, self.lo_x, self.extra),
            y: coordinate(self.hi_y, self.lo_y, self.extra >> 2),
        }
    }
}

fn coordinate(hi: u8, lo: u8, lowest: u8) -> u16 {
    u16::from(hi & 31) << 7 | u16::from(lo & 31) << 2 | u16::from(lowest & 3)
}

impl<const FILLER: bool> Reader<'_, FILLER> {
    pub fn point(&mut self, last: Point) -> Result<Point, ReadingRefused> {
        let mut bytes = PointBytes::of(last);
        let mut taken = self.take()?;
        if taken.byte < 64 {
            bytes.hi_y = taken.byte;
            taken = self.take()?;
        }
        if taken.byte >= 96 {
            bytes.lo_y = taken.byte;
            taken = self.take()?;
            // Only a second byte of this range shows that the first one was Extra.
            if taken.byte >= 96 {
                bytes.extra = bytes.lo_y;
                bytes.lo_y = taken.byte;
                taken = self.take()?;
            }
            if taken.byte < 64 {
                bytes.hi_x = taken.byte;
                taken = self.take()?;
            }
        }
        if !(64..96).contains(&taken.byte) {
            return refused(Refusal::ByteNotAllowed, taken.place);
        }
        bytes.lo_x = taken.byte;
        Ok(bytes.point())
    }
}

/// The spelling of a point to the front of `out`, and its length.
pub fn spell_point(last: Point, point: Point, out: &mut [u8]) -> usize {
    let was = PointBytes::of(last);
    let now = PointBytes::of(point);
    let extra = was.extra != now.extra;
    let hi_x = was.hi_x != now.hi_x;
    let lo_y = was.lo_y != now.lo_y || extra || hi_x;
    let parts = [
        (was.hi_y != now.hi_y, now.hi_y),
        (extra, now.extra),
        (lo_y, now.lo_y),
        (hi_x, now.hi_x),
        (true, now.lo_x),
    ];
    let mut length = 0;
    for (needed, byte) in parts {
        if needed {
            out[length] = byte;
            length += 1;
        }
    }
    length
}

#[cfg(test)]
mod tests {
    use super::*;

    const FAR: Point = Point { x: 4095, y: 3071 };

    #[test]
    fn the_points_of_the_sheet_are_spelled_and_read_back() {
        let sheet: [(Point, Point, &[u8]); 5] = [
            (Point::FRESH, Point { x: 128, y: 0 }, &[96, 33, 64]),
            (Point::FRESH, Point { x: 1, y: 0 }, &[97, 96, 64]),
            (Point::FRESH, FAR, &[55, 111, 127, 63, 95]),
            (FAR, FAR, &[95]),
            (Point::FRESH, Point { x: 0, y: 100 }, &[121, 64]),
        ];
        for (last, point, spelling) in sheet {
            let mut out = [0; 5];
            let length = spell_point(last, point, &mut out);
            assert_eq!(&out[..length], spelling);
            let mut reader = Reader::<false> {
                bytes: spelling,
                at: 0,
            };
            assert_eq!(reader.point(last), Ok(point));
        }
    }

    #[test]
    fn hi_x_needs_lo_y_before_it() {
        let mut reader = Reader::<false> {
            bytes: &[33, 34, 64],
            at: 0,
        };
        assert_eq!(
            reader.point(Point::FRESH),
            refused(Refusal::ByteNotAllowed, 1)
        );
    }
}
