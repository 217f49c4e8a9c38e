//! The digest of docs/VECTORS.md: many numbers in one.

const FACTOR: u64 = 65599;
const MODULUS: u64 = 4294967291;

#[derive(Clone, Copy, Debug, PartialEq, Eq)]
pub struct Digest(u64);

impl Digest {
    /// "The digest starts at 1."
    pub fn new() -> Digest {
        Digest(1)
    }

    pub fn result(self) -> u64 {
        self.0
    }

    /// "Taking in a number n makes the digest h into (h * 65599 + n) mod 4294967291."
    pub fn number(&mut self, number: u32) {
        self.0 = (self.0 * FACTOR + u64::from(number)) % MODULUS;
    }

    /// "1 if it is negative and 0 if not, then its magnitude."
    pub fn signed(&mut self, value: i32) {
        self.number(u32::from(value < 0));
        self.number(value.unsigned_abs());
    }

    pub fn bytes(&mut self, bytes: &[u8]) {
        for &byte in bytes {
            self.number(u32::from(byte));
        }
    }
}

#[cfg(test)]
mod tests {
    use super::*;

    fn of_numbers(numbers: &[u32]) -> Digest {
        let mut digest = Digest::new();
        for &number in numbers {
            digest.number(number);
        }
        digest
    }

    #[test]
    fn the_first_steps_by_hand() {
        assert_eq!(of_numbers(&[]).result(), 1);
        assert_eq!(of_numbers(&[5]).result(), 65604);
        // 65604 times 65599 is 4303556796, and 2 is taken in.
        assert_eq!(of_numbers(&[5, 2]).result(), 4303556798 - 4294967291);
        // The greatest number: 65599 and 4294967295 are 65603 above the modulus.
        assert_eq!(of_numbers(&[u32::MAX]).result(), 65603);
    }

    #[test]
    fn signed_values_are_two_numbers() {
        let mut digest = Digest::new();
        digest.signed(-32768);
        digest.bytes(&[7, 0]);
        assert_eq!(digest, of_numbers(&[1, 32768, 7, 0]));
    }
}
