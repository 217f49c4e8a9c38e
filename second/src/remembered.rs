//! What is remembered from one command to the next: the last point and the DEL mode.

use crate::commands::Command;
use crate::points::Point;

/// What a plain 127 is.
#[derive(Clone, Copy, Debug, PartialEq, Eq)]
pub enum DelMode {
    /// Mode 0: "127 is data wherever a parameter allows it", and outside commands it is text.
    Data,
    /// Mode 1: "each plain 127, in text, between letters or in a parameter, is passed over".
    Filler,
}

#[derive(Clone, Copy, Debug, PartialEq, Eq)]
pub struct Remembered {
    pub point: Point,
    pub mode: DelMode,
}

impl Remembered {
    /// "The mode goes with the remembered point, fresh 0."
    pub const FRESH: Remembered = Remembered {
        point: Point::FRESH,
        mode: DelMode::Data,
    };

    pub const fn fresh_in(mode: DelMode) -> Remembered {
        Remembered {
            mode,
            ..Remembered::FRESH
        }
    }

    pub fn in_range(self) -> bool {
        self.point.in_range()
    }

    /// What is remembered behind a whole command, be it read or written.
    pub fn behind(self, command: &Command) -> Remembered {
        Remembered {
            point: command.last_point().unwrap_or(self.point),
            mode: command.mode_set().unwrap_or(self.mode),
        }
    }
}

#[cfg(test)]
mod tests {
    use super::*;
    use crate::commands::Value;

    const FAR: Point = Point { x: 4095, y: 3071 };

    fn behind(mode: DelMode, letters: &[u8; 2], value: Value) -> Remembered {
        let command = Command {
            letters: *letters,
            values: vec![value],
        };
        Remembered { point: FAR, mode }.behind(&command)
    }

    #[test]
    fn ki_moves_the_mode_and_leaves_the_point() {
        for (number, from_data, from_filler) in [
            (0, DelMode::Data, DelMode::Data),
            (1, DelMode::Filler, DelMode::Filler),
            (2, DelMode::Data, DelMode::Filler),
            (-1, DelMode::Data, DelMode::Filler),
            (1009, DelMode::Data, DelMode::Filler),
        ] {
            for (before, after) in [(DelMode::Data, from_data), (DelMode::Filler, from_filler)] {
                let remembered = behind(before, b"KI", Value::Integer(number));
                let expected = Remembered {
                    point: FAR,
                    mode: after,
                };
                assert_eq!(remembered, expected, "KI {number}");
            }
        }
    }

    #[test]
    fn other_commands_leave_the_mode() {
        for mode in [DelMode::Data, DelMode::Filler] {
            assert_eq!(behind(mode, b"KA", Value::Integer(1)).mode, mode);
            assert_eq!(behind(mode, b"KH", Value::Integer(0)).mode, mode);
            let moved = behind(mode, b"LF", Value::Point(Point::FRESH));
            assert_eq!((moved.point, moved.mode), (Point::FRESH, mode));
        }
    }
}
