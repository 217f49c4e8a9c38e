//! The record of the pixel commands: bits, viewport and beam. RU, RS, RH, the step and a fresh record.

use crate::answers::Refusal;
use crate::points::Point;

const GREATEST_SIDE: usize = 512;

/// The viewport's ends belong to it. (0,0) is the lower left of the surface.
#[derive(Clone, Copy, Debug, Default, PartialEq, Eq)]
pub struct Record {
    pub bits: usize,
    pub left: usize,
    pub bottom: usize,
    pub right: usize,
    pub top: usize,
    pub x: usize,
    pub y: usize,
}

#[derive(Clone, Copy, Debug, PartialEq, Eq)]
pub struct Size {
    pub w: usize,
    pub h: usize,
}

impl Size {
    /// "W and H are each 1..512 .. or 11 is given."
    pub fn check(self) -> Result<(), Refusal> {
        let is_side = |side| (1..=GREATEST_SIDE).contains(&side);
        if is_side(self.w) && is_side(self.h) {
            Ok(())
        } else {
            Err(Refusal::SurfaceSize)
        }
    }

    fn holds(self, point: Point) -> bool {
        (point.x as usize) < self.w && (point.y as usize) < self.h
    }
}

impl Record {
    /// "Fresh: the whole surface, beam at the upper left."
    pub fn fresh(size: Size) -> Result<Record, Refusal> {
        size.check()?;
        Ok(Record {
            right: size.w - 1,
            top: size.h - 1,
            y: size.h - 1,
            ..Record::default()
        })
    }

    /// RU "sets the bits from its third integer and nothing else".
    pub fn set_bits(&mut self, size: Size, integers: [i32; 3]) -> Result<(), Refusal> {
        self.check(size)?;
        self.bits = match integers[2] {
            1 => 1,
            2 => 2,
            3 => 3,
            6 => 6,
            _ => return Err(Refusal::NotValid),
        };
        Ok(())
    }

    /// RS "takes any two opposite corners, sets the viewport, and the beam to its upper left".
    pub fn set_viewport(&mut self, size: Size, corners: [Point; 2]) -> Result<(), Refusal> {
        self.check(size)?;
        if !corners.iter().all(|&corner| size.holds(corner)) {
            return Err(Refusal::NotValid);
        }
        let [one, other] = corners;
        self.left = one.x.min(other.x) as usize;
        self.right = one.x.max(other.x) as usize;
        self.bottom = one.y.min(other.y) as usize;
        self.top = one.y.max(other.y) as usize;
        (self.x, self.y) = (self.left, self.top);
        Ok(())
    }

    /// RH "sets the beam, measured on the surface"; 8 "for a place outside the viewport".
    pub fn set_beam(&mut self, size: Size, to: Point) -> Result<(), Refusal> {
        self.check(size)?;
        let (x, y) = (to.x as usize, to.y as usize);
        if !self.holds(x, y) {
            return Err(Refusal::NotValid);
        }
        (self.x, self.y) = (x, y);
        Ok(())
    }

    pub fn step(&mut self, size: Size) -> Result<(), Refusal> {
        self.check(size)?;
        self.advance(1);
        Ok(())
    }

    /// 11 for the size, then 8 for the record.
    pub fn check(&self, size: Size) -> Result<(), Refusal> {
        size.check()?;
        if self.is_valid(size) {
            Ok(())
        } else {
            Err(Refusal::NotValid)
        }
    }

    pub fn fields(&self) -> [usize; 7] {
        [
            self.bits,
            self.left,
            self.bottom,
            self.right,
            self.top,
            self.x,
            self.y,
        ]
    }

    fn is_valid(&self, size: Size) -> bool {
        matches!(self.bits, 0 | 1 | 2 | 3 | 6)
            && self.left <= self.right
            && self.right < size.w
            && self.bottom <= self.top
            && self.top < size.h
            && self.holds(self.x, self.y)
    }

    fn holds(&self, x: usize, y: usize) -> bool {
        (self.left..=self.right).contains(&x) && (self.bottom..=self.top).contains(&y)
    }

    fn width(&self) -> usize {
        self.right - self.left + 1
    }

    fn area(&self) -> usize {
        self.width() * (self.top - self.bottom + 1)
    }

    /// The viewport's places have numbers from 0 at the upper left, row by row down. This is the one so many places past the beam,
    /// going round from the last place to the upper left.
    fn place_past_beam(&self, places: usize) -> (usize, usize) {
        let beam = (self.top - self.y) * self.width() + (self.x - self.left);
        let number = (beam + places) % self.area();
        (
            self.left + number % self.width(),
            self.top - number / self.width(),
        )
    }

    /// Where the byte of that place lies: "the lent bytes hold the top row first".
    pub fn index_past_beam(&self, places: usize, size: Size) -> usize {
        let (x, y) = self.place_past_beam(places);
        (size.h - 1 - y) * size.w + x
    }

    pub fn advance(&mut self, places: usize) {
        (self.x, self.y) = self.place_past_beam(places);
    }

    /// "To the left edge of the row below, round to the top after the last, even from a left edge."
    pub fn go_to_next_row(&mut self) {
        self.x = self.left;
        self.y = if self.y == self.bottom {
            self.top
        } else {
            self.y - 1
        };
    }
}

#[cfg(test)]
mod tests {
    use super::*;

    const SIZE: Size = Size { w: 5, h: 4 };

    fn fresh() -> Record {
        Record::fresh(SIZE).unwrap()
    }

    fn point(x: u32, y: u32) -> Point {
        Point { x, y }
    }

    #[test]
    fn a_fresh_record_has_the_whole_surface() {
        let expected = Record {
            bits: 0,
            left: 0,
            bottom: 0,
            right: 4,
            top: 3,
            x: 0,
            y: 3,
        };
        assert_eq!(fresh(), expected);
    }

    #[test]
    fn sides_are_1_to_512() {
        for (w, h) in [(0, 1), (1, 0), (513, 1), (1, 513)] {
            assert_eq!(Record::fresh(Size { w, h }), Err(Refusal::SurfaceSize));
        }
        assert!(Record::fresh(Size { w: 512, h: 1 }).is_ok());
        assert!(Record::fresh(Size { w: 1, h: 512 }).is_ok());
    }

    #[test]
    fn ru_takes_the_third_integer() {
        for bits in -1..=8 {
            let mut record = fresh();
            let answer = record.set_bits(SIZE, [-5, 32767, bits]);
            if [1, 2, 3, 6].contains(&bits) {
                assert_eq!(answer, Ok(()));
                assert_eq!(record.bits as i32, bits);
            } else {
                assert_eq!(answer, Err(Refusal::NotValid));
                assert_eq!(record, fresh());
            }
        }
    }

    #[test]
    fn rs_takes_any_two_opposite_corners() {
        for corners in [
            [point(1, 0), point(3, 2)],
            [point(3, 2), point(1, 0)],
            [point(1, 2), point(3, 0)],
            [point(3, 0), point(1, 2)],
        ] {
            let mut record = fresh();
            assert_eq!(record.set_viewport(SIZE, corners), Ok(()));
            assert_eq!(
                [record.left, record.bottom, record.right, record.top],
                [1, 0, 3, 2]
            );
            assert_eq!([record.x, record.y], [1, 2]);
        }
    }

    #[test]
    fn corners_outside_the_surface_are_refused() {
        for outside in [point(5, 0), point(0, 4)] {
            for corners in [[outside, point(0, 0)], [point(0, 0), outside]] {
                let mut record = fresh();
                assert_eq!(record.set_viewport(SIZE, corners), Err(Refusal::NotValid));
                assert_eq!(record, fresh());
            }
        }
    }

    #[test]
    fn rh_is_measured_on_the_surface_and_stays_in_the_viewport() {
        let mut record = fresh();
        record
            .set_viewport(SIZE, [point(1, 1), point(3, 2)])
            .unwrap();
        assert_eq!(record.set_beam(SIZE, point(3, 1)), Ok(()));
        assert_eq!([record.x, record.y], [3, 1]);
        for outside in [point(0, 1), point(4, 1), point(1, 0), point(1, 3)] {
            assert_eq!(record.set_beam(SIZE, outside), Err(Refusal::NotValid));
            assert_eq!([record.x, record.y], [3, 1]);
        }
    }

    #[test]
    fn the_beam_goes_right_then_down_then_to_the_upper_left() {
        let mut record = fresh();
        record
            .set_viewport(SIZE, [point(1, 1), point(2, 2)])
            .unwrap();
        let mut places = Vec::new();
        for _ in 0..5 {
            places.push((record.x, record.y));
            record.step(SIZE).unwrap();
        }
        assert_eq!(places, [(1, 2), (2, 2), (1, 1), (2, 1), (1, 2)]);
    }

    #[test]
    fn the_next_row_is_below_and_after_the_last_the_top() {
        let mut record = fresh();
        record
            .set_viewport(SIZE, [point(1, 1), point(3, 2)])
            .unwrap();
        for from in [1, 2, 3] {
            record.set_beam(SIZE, point(from, 2)).unwrap();
            record.go_to_next_row();
            assert_eq!([record.x, record.y], [1, 1]);
            record.set_beam(SIZE, point(from, 1)).unwrap();
            record.go_to_next_row();
            assert_eq!([record.x, record.y], [1, 2]);
        }
    }

    #[test]
    fn a_record_that_is_not_valid_is_refused() {
        let wrongs: [fn(&mut Record); 7] = [
            |record| record.bits = 4,
            |record| record.left = 1,
            |record| record.bottom = 4,
            |record| record.right = 5,
            |record| record.top = 4,
            |record| record.x = 5,
            |record| record.y = 4,
        ];
        for wrong in wrongs {
            let mut record = fresh();
            wrong(&mut record);
            assert_eq!(record.step(SIZE), Err(Refusal::NotValid));
            assert_eq!(record.step(Size { w: 0, h: 4 }), Err(Refusal::SurfaceSize));
        }
    }
}
