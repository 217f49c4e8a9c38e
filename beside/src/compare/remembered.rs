//! What is remembered, as the exported calls have it: x, y and the number of the DEL mode.

use second::points::Point;
use second::remembered::{DelMode, Remembered};

use super::draws::Draws;
use super::names::{Name, MODE_OUTSIDE};

const OUTSIDE: [u16; 4] = [4096, 4097, 32768, 65535];
const NO_MODE: [u16; 3] = [2, 3, 65535];

/// None where the calls give 8: for a point outside 0..4095, and for another mode than 0 and 1.
pub fn remembered_from([x, y, mode]: [u16; 3]) -> Option<Remembered> {
    let [x, y] = [x, y].map(u32::from);
    let mode = match mode {
        0 => DelMode::Data,
        1 => DelMode::Filler,
        _ => return None,
    };
    let point = Point { x, y };
    let remembered = Remembered { point, mode };
    remembered.in_range().then_some(remembered)
}

pub fn numbers_of(Remembered { point, mode }: Remembered) -> [u16; 3] {
    let mode = match mode {
        DelMode::Data => 0,
        DelMode::Filler => 1,
    };
    [point.x as u16, point.y as u16, mode]
}

/// Named where it is so: there is no such mode.
pub fn met_outside([_, _, mode]: [u16; 3]) -> Vec<Name> {
    Vec::from_iter((mode > 1).then_some(MODE_OUTSIDE))
}

/// One in three is filler.
pub fn draw_mode(draws: &mut Draws) -> DelMode {
    match draws.below(3) {
        0 => DelMode::Filler,
        _ => DelMode::Data,
    }
}

/// Any point with a mode.
pub fn draw_inside(draws: &mut Draws, mode: DelMode) -> Remembered {
    let point = match draws.below(3) {
        0 => Point::FRESH,
        _ => Point {
            x: draws.below(4096) as u32,
            y: draws.below(4096) as u32,
        },
    };
    Remembered { point, mode }
}

/// Mostly in the mode that something was made for, and outside once in so many times.
pub fn draw_remembered(draws: &mut Draws, made_for: DelMode, times: usize) -> [u16; 3] {
    let mode = match draws.below(6) {
        0 => draw_mode(draws),
        _ => made_for,
    };
    let mut remembered = numbers_of(draw_inside(draws, mode));
    if draws.one_in(times) {
        put_outside(draws, &mut remembered);
    }
    remembered
}

/// A coordinate or the mode outside.
pub fn put_outside(draws: &mut Draws, remembered: &mut [u16; 3]) {
    match draws.below(3) {
        2 => remembered[2] = draws.one_of(&NO_MODE),
        coordinate => remembered[coordinate] = draws.one_of(&OUTSIDE),
    }
}

#[cfg(test)]
mod tests {
    use super::*;

    #[test]
    fn what_is_outside_is_none() {
        for numbers in [[0, 0, 0], [4095, 4095, 1]] {
            let remembered = remembered_from(numbers).unwrap();
            assert_eq!(numbers_of(remembered), numbers);
        }
        for numbers in [[4096, 0, 0], [0, 4096, 1], [0, 0, 2], [0, 0, 65535]] {
            assert_eq!(remembered_from(numbers), None);
        }
    }
}
