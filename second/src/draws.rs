//! Draws: numbers that look like chance, and are always the same.

const FACTOR: u64 = 1103515245;
const ADDED: u64 = 12345;
const MODULUS: u64 = 2147483648;
const DROPPED: u64 = 65536;

pub struct Draws(u64);

impl Draws {
    pub fn starting_with(x: u64) -> Draws {
        Draws(x)
    }

    /// "Makes x into (x * 1103515245 + 12345) mod 2147483648 and gives (x / 65536) mod n."
    pub fn draw_from(&mut self, n: u32) -> u32 {
        self.0 = (self.0 * FACTOR + ADDED) % MODULUS;
        (self.0 / DROPPED) as u32 % n
    }

    pub fn draw_byte(&mut self) -> u8 {
        self.draw_from(256) as u8
    }

    /// A number below a length or another size. Of a size above 32768 the greatest numbers are never drawn.
    pub fn draw_below(&mut self, size: usize) -> usize {
        self.draw_from(size as u32) as usize
    }
}

#[cfg(test)]
mod tests {
    use super::*;

    #[test]
    fn the_first_draws_from_1() {
        let mut draws = Draws::starting_with(1);
        // 1103515245 and 12345 are 1103527590, which is 16838 times 65536 and a remainder.
        let drawn = [(); 5].map(|()| draws.draw_from(32768));
        assert_eq!(drawn, [16838, 5758, 10113, 17515, 31051]);
    }

    #[test]
    fn a_draw_is_below_its_number() {
        let mut draws = Draws::starting_with(1);
        assert_eq!(draws.draw_from(4), 16838 % 4);
        assert_eq!(draws.draw_byte(), 126);
        assert_eq!(draws.draw_below(1000), 113);
        assert_eq!(draws.draw_from(1), 0);
    }
}
