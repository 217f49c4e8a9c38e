//! What readings and writings answer.

/// The refusals of document 01, under the paper's own numbers.
#[derive(Clone, Copy, Debug, PartialEq, Eq)]
pub enum Refusal {
    BytesEnd = 1,
    UnknownCommand = 2,
    ByteNotAllowed = 3,
    /// A third high byte, or an integer out of range.
    IntegerOutside = 4,
    CountOutside = 5,
    NewEscape = 6,
    TooShort = 7,
    /// A value out of range, or a record that is not valid.
    NotValid = 8,
    BitsNotSet = 9,
    RasterCharacters = 10,
    SurfaceSize = 11,
    StoreMalformed = 12,
    StoreTooShort = 13,
    NoSuchMacro = 14,
    TooDeep = 15,
    TooManyMacros = 16,
    BodyRefused = 17,
}

impl Refusal {
    pub fn number(self) -> u32 {
        self as u32
    }

    /// "A reading refusal gives its place."
    pub fn at(self, place: usize) -> ReadingRefused {
        ReadingRefused {
            refusal: self,
            place,
        }
    }
}

#[derive(Clone, Copy, Debug, PartialEq, Eq)]
pub struct ReadingRefused {
    pub refusal: Refusal,
    pub place: usize,
}

/// A value that was read, the place of its last byte and the place where reading goes on.
#[derive(Clone, Copy, Debug, PartialEq, Eq)]
pub struct Found<T> {
    pub value: T,
    pub last: usize,
    pub next: usize,
}

impl<T> Found<T> {
    pub fn map<U>(self, make: impl FnOnce(T) -> U) -> Found<U> {
        Found {
            value: make(self.value),
            last: self.last,
            next: self.next,
        }
    }
}

pub type Reading<T> = Result<Found<T>, ReadingRefused>;

/// The bytes that stand for a value, or the refusal.
pub type Spelling = Result<Vec<u8>, Refusal>;

/// The place after the last byte written, or the refusal.
pub type Writing = Result<usize, Refusal>;

/// Puts a whole spelling at its place. Nothing is changed where it does not fit, be it that the place is past the end.
pub fn put(spelling: &[u8], bytes: &mut [u8], place: usize) -> Writing {
    let room = bytes
        .get_mut(place..)
        .and_then(|rest| rest.get_mut(..spelling.len()))
        .ok_or(Refusal::TooShort)?;
    room.copy_from_slice(spelling);
    Ok(place + spelling.len())
}

#[cfg(test)]
mod tests {
    use super::*;

    #[test]
    fn a_spelling_goes_to_its_place() {
        let mut bytes = [255; 4];
        assert_eq!(put(&[1, 2], &mut bytes, 2), Ok(4));
        assert_eq!(bytes, [255, 255, 1, 2]);
    }

    #[test]
    fn too_little_room_changes_nothing() {
        let mut bytes = [255; 4];
        for place in [3, 4, 5, usize::MAX] {
            assert_eq!(put(&[1, 2], &mut bytes, place), Err(Refusal::TooShort));
        }
        assert_eq!(bytes, [255; 4]);
    }
}
