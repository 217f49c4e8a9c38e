//! The numbers that the unit gives back.

#[derive(Clone, Copy, Debug, PartialEq, Eq)]
#[repr(u8)]
pub enum Refusal {
    BytesEnd = 1,
    UnknownCommand = 2,
    ByteNotAllowed = 3,
    IntegerOutside = 4,
    CountOutside = 5,
    NewEscape = 6,
    TooShort = 7,
    NotValid = 8,
    BitsNotSet = 9,
    RasterCharacters = 10,
    SurfaceSize = 11,
    StoreMalformed = 12,
    StoreTooShort = 13,
    NoSuchMacro = 14,
    TooDeep = 15,
    TooManyMacros = 16,
    BodyRefused = 17,
}

impl Refusal {
    pub fn number(self) -> u8 {
        self as u8
    }
}

/// A refusal while reading, and its place.
#[derive(Clone, Copy, Debug, PartialEq, Eq)]
pub struct ReadingRefused {
    pub refusal: Refusal,
    pub place: usize,
}

pub fn refused<T>(refusal: Refusal, place: usize) -> Result<T, ReadingRefused> {
    Err(ReadingRefused { refusal, place })
}
