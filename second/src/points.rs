//! Points as parameters of commands, each spelled against the last one.

use crate::answers::{put, Found, Reading, Refusal, Spelling, Writing};
use crate::parameters::next_byte;
use crate::remembered::Remembered;

const GREATEST: u32 = 4095;

#[derive(Clone, Copy, Debug, PartialEq, Eq)]
pub struct Point {
    pub x: u32,
    pub y: u32,
}

impl Point {
    /// "A fresh remembered point is (0,0)."
    pub const FRESH: Point = Point { x: 0, y: 0 };

    pub fn in_range(self) -> bool {
        self.x <= GREATEST && self.y <= GREATEST
    }
}

/// What each of a point's five bytes holds beside the number it is counted from.
#[derive(Clone, Copy)]
struct Parts {
    hi_y: u8,
    extra: u8,
    lo_y: u8,
    hi_x: u8,
    lo_x: u8,
}

impl Parts {
    fn of(point: Point) -> Parts {
        Parts {
            hi_y: (point.y / 128) as u8,
            extra: (4 * (point.y % 4) + point.x % 4) as u8,
            lo_y: (point.y / 4 % 32) as u8,
            hi_x: (point.x / 128) as u8,
            lo_x: (point.x / 4 % 32) as u8,
        }
    }

    fn point(self) -> Point {
        Point {
            x: join(self.hi_x, self.lo_x, self.extra % 4),
            y: join(self.hi_y, self.lo_y, self.extra / 4),
        }
    }
}

fn join(high: u8, low: u8, last_bits: u8) -> u32 {
    u32::from(high) * 128 + u32::from(low) * 4 + u32::from(last_bits)
}

fn is_high(byte: u8) -> bool {
    (32..=63).contains(&byte)
}

fn is_lo_x(byte: u8) -> bool {
    (64..=95).contains(&byte)
}

fn is_extra_or_lo_y(byte: u8) -> bool {
    (96..=127).contains(&byte)
}

/// Reads HiY, Extra, LoY, HiX and LoX, those left out being "those of the last point".
pub fn read_point(bytes: &[u8], start: usize, remembered: Remembered) -> Reading<Point> {
    if !remembered.in_range() {
        return Err(Refusal::NotValid.at(0));
    }
    let mode = remembered.mode;
    let mut parts = Parts::of(remembered.point);
    let mut byte = next_byte(bytes, start, mode)?;
    if is_high(byte.value) {
        parts.hi_y = byte.value - 32;
        byte = next_byte(bytes, byte.next, mode)?;
    }
    if is_extra_or_lo_y(byte.value) {
        // "Of two bytes 96..127 the first is Extra; a single one is LoY": only the byte behind it can tell.
        let first = byte.value;
        byte = next_byte(bytes, byte.next, mode)?;
        if is_extra_or_lo_y(byte.value) {
            // "The 16 bit of Extra is ignored when read."
            parts.extra = (first - 96) & 15;
            parts.lo_y = byte.value - 96;
            byte = next_byte(bytes, byte.next, mode)?;
        } else {
            parts.lo_y = first - 96;
        }
        // In here, as "HiX needs LoY before it".
        if is_high(byte.value) {
            parts.hi_x = byte.value - 32;
            byte = next_byte(bytes, byte.next, mode)?;
        }
    }
    // "LoX is always present": whatever has not been taken by now must be it.
    if !is_lo_x(byte.value) {
        return Err(Refusal::ByteNotAllowed.at(byte.place));
    }
    parts.lo_x = byte.value - 64;
    Ok(Found {
        value: parts.point(),
        last: byte.place,
        next: byte.next,
    })
}

pub fn write_point(point: Point, remembered: Point, bytes: &mut [u8], place: usize) -> Writing {
    put(&spell_point(point, remembered)?, bytes, place)
}

/// "The writer leaves out all that it may."
pub fn spell_point(point: Point, remembered: Point) -> Spelling {
    if !point.in_range() || !remembered.in_range() {
        return Err(Refusal::NotValid);
    }
    let new = Parts::of(point);
    let old = Parts::of(remembered);
    let needs_extra = new.extra != old.extra;
    let needs_hi_x = new.hi_x != old.hi_x;
    // "Extra needs LoY after it, and HiX needs LoY before it."
    let needs_lo_y = new.lo_y != old.lo_y || needs_extra || needs_hi_x;

    let mut spelling = Vec::with_capacity(5);
    if new.hi_y != old.hi_y {
        spelling.push(32 + new.hi_y);
    }
    if needs_extra {
        spelling.push(96 + new.extra);
    }
    if needs_lo_y {
        spelling.push(96 + new.lo_y);
    }
    if needs_hi_x {
        spelling.push(32 + new.hi_x);
    }
    spelling.push(64 + new.lo_x);
    Ok(spelling)
}

#[cfg(test)]
mod tests {
    use super::*;

    const ORIGIN: Point = Point { x: 0, y: 0 };
    const CORNER: Point = Point { x: 4095, y: 3071 };
    const OUTSIDE: Point = Point { x: 0, y: 4096 };

    fn from(point: Point) -> Remembered {
        Remembered {
            point,
            ..Remembered::FRESH
        }
    }

    fn refusal(bytes: &[u8]) -> (u32, usize) {
        let refused = read_point(bytes, 0, from(ORIGIN)).unwrap_err();
        (refused.refusal.number(), refused.place)
    }

    fn xy(bytes: &[u8], remembered: Point) -> (u32, u32) {
        let found = read_point(bytes, 0, from(remembered)).unwrap();
        assert_eq!((found.last, found.next), (bytes.len() - 1, bytes.len()));
        (found.value.x, found.value.y)
    }

    #[test]
    fn worked_points_are_written_and_read() {
        let worked: [(Point, Point, &[u8]); 5] = [
            (Point { x: 128, y: 0 }, ORIGIN, &[96, 33, 64]),
            (Point { x: 1, y: 0 }, ORIGIN, &[97, 96, 64]),
            (CORNER, ORIGIN, &[55, 111, 127, 63, 95]),
            (CORNER, CORNER, &[95]),
            (Point { x: 0, y: 100 }, ORIGIN, &[121, 64]),
        ];
        for (point, remembered, spelling) in worked {
            let mut bytes = [255; 8];
            let end = spelling.len();
            assert_eq!(write_point(point, remembered, &mut bytes, 0), Ok(end));
            assert_eq!(&bytes[..end], spelling);
            assert_eq!(xy(spelling, remembered), (point.x, point.y));
        }
    }

    #[test]
    fn parts_left_out_are_those_of_the_last_point() {
        assert_eq!(xy(&[64], CORNER), (3971, 3071));
        assert_eq!(xy(&[32, 95], CORNER), (4095, 127));
        assert_eq!(xy(&[96, 95], CORNER), (4095, 2947));
        assert_eq!(xy(&[96, 32, 95], CORNER), (127, 2947));
        assert_eq!(xy(&[96, 96, 95], CORNER), (4092, 2944));
    }

    #[test]
    fn the_16_bit_of_extra_is_ignored() {
        assert_eq!(xy(&[112, 96, 64], ORIGIN), (0, 0));
        assert_eq!(xy(&[127, 96, 64], ORIGIN), (3, 3));
    }

    #[test]
    fn a_pair_is_extra_or_lo_y() {
        assert_eq!(xy(&[27, 63, 64], ORIGIN), (0, 124));
        assert_eq!(xy(&[27, 63, 27, 63, 64], ORIGIN), (3, 127));
    }

    #[test]
    fn bytes_out_of_order_are_refused_where_they_stand() {
        assert_eq!(refusal(&[32, 32, 64]), (3, 1));
        assert_eq!(refusal(&[96, 96, 96, 64]), (3, 2));
        assert_eq!(refusal(&[96, 96, 27, 63, 64]), (3, 3));
        assert_eq!(refusal(&[96, 32, 32]), (3, 2));
        assert_eq!(refusal(&[96, 32, 96]), (3, 2));
    }

    #[test]
    fn bytes_that_end_are_refused_at_the_length() {
        for length in 0..5 {
            assert_eq!(refusal(&[55, 111, 127, 63, 95][..length]), (1, length));
        }
    }

    #[test]
    fn points_outside_are_refused_first() {
        for (point, remembered) in [(OUTSIDE, ORIGIN), (ORIGIN, OUTSIDE)] {
            assert_eq!(
                write_point(point, remembered, &mut [], 0),
                Err(Refusal::NotValid)
            );
        }
        let read = read_point(&[0], 5, from(OUTSIDE));
        assert_eq!(read, Err(Refusal::NotValid.at(0)));
    }

    #[test]
    fn a_point_without_room_is_refused() {
        let mut bytes = [255; 2];
        let point = Point { x: 1, y: 0 };
        assert_eq!(
            write_point(point, ORIGIN, &mut bytes, 0),
            Err(Refusal::TooShort)
        );
        assert_eq!(bytes, [255; 2]);
    }
}
