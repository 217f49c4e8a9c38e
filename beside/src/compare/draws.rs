//! The numbers that cases are made of. Each case has draws of its own, so that it can be made again alone.

pub struct Draws(u64);

impl Draws {
    /// The draws of a case: its number among those of its kind, under a seed.
    pub fn of_case(seed: u64, kind: usize, case: u64) -> Draws {
        let mixed = mix(mix(mix(seed) ^ kind as u64) ^ case);
        // Nought would only ever be followed by nought.
        Draws(mixed.max(1))
    }

    fn number(&mut self) -> u64 {
        self.0 ^= self.0 >> 12;
        self.0 ^= self.0 << 25;
        self.0 ^= self.0 >> 27;
        self.0.wrapping_mul(0x2545_F491_4F6C_DD1D) >> 16
    }

    pub fn below(&mut self, size: usize) -> usize {
        (self.number() % size as u64) as usize
    }

    /// Both ends may be drawn.
    pub fn between(&mut self, first: i32, last: i32) -> i32 {
        let choices = i64::from(last) - i64::from(first) + 1;
        (i64::from(first) + (self.number() % choices as u64) as i64) as i32
    }

    pub fn byte(&mut self) -> u8 {
        self.below(256) as u8
    }

    pub fn one_in(&mut self, times: usize) -> bool {
        self.below(times) == 0
    }

    pub fn one_of<T: Copy>(&mut self, choices: &[T]) -> T {
        choices[self.below(choices.len())]
    }

    pub fn any_integer(&mut self) -> i32 {
        self.number() as u32 as i32
    }
}

/// Neighbouring numbers become numbers that have nothing to do with each other.
fn mix(number: u64) -> u64 {
    let mut mixed = number.wrapping_add(0x9E37_79B9_7F4A_7C15);
    mixed = (mixed ^ mixed >> 30).wrapping_mul(0xBF58_476D_1CE4_E5B9);
    mixed = (mixed ^ mixed >> 27).wrapping_mul(0x94D0_49BB_1331_11EB);
    mixed ^ mixed >> 31
}

#[cfg(test)]
mod tests {
    use super::*;

    fn drawn(seed: u64, kind: usize, case: u64) -> [usize; 4] {
        let mut draws = Draws::of_case(seed, kind, case);
        [(); 4].map(|()| draws.below(1 << 30))
    }

    #[test]
    fn a_case_has_the_same_draws_again_and_others_have_others() {
        assert_eq!(drawn(1, 2, 3), drawn(1, 2, 3));
        for other in [drawn(2, 2, 3), drawn(1, 3, 3), drawn(1, 2, 4)] {
            assert_ne!(drawn(1, 2, 3), other);
        }
    }

    #[test]
    fn both_ends_are_drawn_and_nothing_outside() {
        let mut draws = Draws::of_case(1, 0, 0);
        let mut seen = [0; 5];
        for _ in 0..1000 {
            seen[(draws.between(-2, 2) + 2) as usize] += 1;
        }
        assert!(seen.iter().all(|&times| times > 100), "{seen:?}");
        assert_eq!(draws.between(i32::MAX, i32::MAX), i32::MAX);
    }
}
