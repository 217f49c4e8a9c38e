//! What is remembered from one command to the next.

use super::points::Point;

/// What a plain 127 is.
#[derive(Clone, Copy, Debug, PartialEq, Eq)]
#[repr(u16)]
pub enum DelMode {
    Data = 0,
    Filler = 1,
}

#[derive(Clone, Copy, Debug, PartialEq, Eq)]
pub struct Remembered {
    pub point: Point,
    pub mode: DelMode,
}

impl Remembered {
    pub const FRESH: Remembered = Remembered::fresh_in(DelMode::Data);

    pub const fn fresh_in(mode: DelMode) -> Remembered {
        let point = Point::FRESH;
        Remembered { point, mode }
    }

    /// As the exported calls have it.
    pub fn numbers(self) -> [u16; 3] {
        [self.point.x, self.point.y, self.mode as u16]
    }

    /// What KI makes of the mode: "KI 0 returns to the old reading; other numbers leave the mode".
    pub fn ignore_deletes(&mut self, number: i32) {
        match number {
            0 => self.mode = DelMode::Data,
            1 => self.mode = DelMode::Filler,
            _ => {}
        }
    }
}
