//! The bytes of parameters, taken one after the other.

use super::refusals::{refused, ReadingRefused, Refusal};

pub const ESC: u8 = 27;

/// "In a parameter, ESC followed by 63 reads as 127."
pub const PAIRED: u8 = 63;
pub const DEL: u8 = 127;

/// Where `FILLER` is false a plain 127 is data. The code of each mode is its own, so that the one does not pay for the other.
pub struct Reader<'a, const FILLER: bool> {
    pub bytes: &'a [u8],
    pub at: usize,
}

/// A byte of a parameter, and its place.
#[derive(Clone, Copy)]
pub struct Taken {
    pub byte: u8,
    pub place: usize,
}

impl<const FILLER: bool> Reader<'_, FILLER> {
    pub fn take(&mut self) -> Result<Taken, ReadingRefused> {
        self.pass_fillers();
        let place = self.at;
        match self.bytes.get(place) {
            None => refused(Refusal::BytesEnd, self.bytes.len()),
            Some(&ESC) => self.take_pair(),
            Some(&byte) if (32..=127).contains(&byte) => {
                self.at += 1;
                Ok(Taken { byte, place })
            }
            Some(_) => refused(Refusal::ByteNotAllowed, place),
        }
    }

    /// "For the pair 27 63 the place is that of the 63."
    fn take_pair(&mut self) -> Result<Taken, ReadingRefused> {
        let escape = self.at;
        self.at += 1;
        self.pass_fillers();
        let place = self.at;
        match self.bytes.get(place) {
            None => refused(Refusal::BytesEnd, self.bytes.len()),
            Some(&PAIRED) => {
                self.at += 1;
                Ok(Taken { byte: DEL, place })
            }
            Some(_) => refused(Refusal::NewEscape, escape),
        }
    }

    /// The 127s from here on, where they are filler.
    pub fn pass_fillers(&mut self) {
        while FILLER && self.bytes.get(self.at) == Some(&DEL) {
            self.at += 1;
        }
    }
}
