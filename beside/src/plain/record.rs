//! The beam record of the pixel writes.

#[derive(Clone, Copy, Debug, PartialEq, Eq)]
pub struct Record {
    pub bits: usize,
    pub left: usize,
    pub bottom: usize,
    pub right: usize,
    pub top: usize,
    pub x: usize,
    pub y: usize,
}

pub fn is_size(w: usize, h: usize) -> bool {
    (1..=512).contains(&w) && (1..=512).contains(&h)
}

impl Record {
    pub fn is_valid(&self, w: usize, h: usize) -> bool {
        let viewport = self.right < w && self.top < h;
        let across = self.left <= self.x && self.x <= self.right;
        let down = self.bottom <= self.y && self.y <= self.top;
        viewport && across && down && matches!(self.bits, 0 | 1 | 2 | 3 | 6)
    }

    /// The beam one place on.
    pub fn step(&mut self) {
        if self.x < self.right {
            self.x += 1;
        } else {
            self.end_row();
        }
    }

    /// The beam at the left edge of the row below, or of the top one behind the last.
    pub fn end_row(&mut self) {
        self.x = self.left;
        if self.y > self.bottom {
            self.y -= 1;
        } else {
            self.y = self.top;
        }
    }
}
