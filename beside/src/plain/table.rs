//! The commands, and the kind of parameters of each.

#[derive(Clone, Copy, Debug, PartialEq, Eq)]
#[repr(u8)]
pub enum Kind {
    OneInteger = 1,
    TwoIntegers = 2,
    ThreeIntegers = 3,
    OnePoint = 4,
    TwoPoints = 5,
    AReal = 6,
    AString = 7,
    AnArray = 8,
    IntegerThenArray = 9,
    IntegerThenString = 10,
    TwoCharacters = 11,
}

/// What one entry of a list is.
#[derive(Clone, Copy, Debug, PartialEq, Eq)]
pub enum Entry {
    Character,
    Integer,
}

impl Kind {
    pub fn entries(self) -> Option<Entry> {
        match self {
            Kind::AString | Kind::IntegerThenString => Some(Entry::Character),
            Kind::AnArray | Kind::IntegerThenArray => Some(Entry::Integer),
            _ => None,
        }
    }
}

pub fn begins_command(first: u8) -> bool {
    matches!(first, b'I' | b'K' | b'L' | b'M' | b'N' | b'R')
}

/// Document 01 prints NX; the table of document 000 has NL, and wins. It has a caller for each mode, and is to cost no more than with one.
#[inline(always)]
pub fn kind_of(letters: [u8; 2]) -> Option<Kind> {
    match &letters {
        b"KA" | b"KH" | b"KI" | b"KX" | b"LL" | b"LV" | b"NL" => Some(Kind::OneInteger),
        b"NR" => Some(Kind::TwoIntegers),
        b"RU" => Some(Kind::ThreeIntegers),
        b"LF" | b"LG" | b"RH" => Some(Kind::OnePoint),
        b"RS" => Some(Kind::TwoPoints),
        b"MR" => Some(Kind::AReal),
        b"LT" => Some(Kind::AString),
        b"RD" | b"RL" => Some(Kind::AnArray),
        b"KD" | b"KO" => Some(Kind::IntegerThenArray),
        b"RP" => Some(Kind::IntegerThenString),
        b"IQ" => Some(Kind::TwoCharacters),
        _ => None,
    }
}
