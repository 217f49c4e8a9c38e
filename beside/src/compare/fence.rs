//! Lent things between two fences, which no call may touch.

use std::fmt;

use super::case::in_decimal;

/// What stands in an answer slot, or in lent room, before a call.
pub trait Junk: Copy {
    const JUNK: Self;
}

impl Junk for u8 {
    const JUNK: u8 = 201;
}

impl Junk for i32 {
    const JUNK: i32 = -7_654_321;
}

impl Junk for usize {
    const JUNK: usize = 987_654_321;
}

/// Equal where what is lent and both fences are.
#[derive(Clone, Debug, PartialEq, Eq)]
pub struct Fenced<T>(Vec<T>);

impl<T: Junk> Fenced<T> {
    pub fn room(room: usize) -> Fenced<T> {
        Fenced(vec![T::JUNK; room + 2])
    }

    pub fn holding(contents: &[T]) -> Fenced<T> {
        let mut fenced = Fenced::room(contents.len());
        fenced.lent().copy_from_slice(contents);
        fenced
    }

    pub fn lent(&mut self) -> &mut [T] {
        let end = self.0.len() - 1;
        &mut self.0[1..end]
    }
}

/// What still is junk is told by its length.
impl<T: Junk + PartialEq + fmt::Display> fmt::Display for Fenced<T> {
    fn fmt(&self, text: &mut fmt::Formatter) -> fmt::Result {
        let end = self.0.len() - 1;
        let is_junk = |entry: &T| *entry == T::JUNK;
        if end == 1 {
            write!(text, "(no room)")?;
        }
        let runs = self.0[1..end].chunk_by(|one, next| is_junk(one) == is_junk(next));
        let runs: Vec<String> = runs
            .map(|run| match is_junk(&run[0]) {
                true => format!("({} not written)", run.len()),
                false => in_decimal(run),
            })
            .collect();
        write!(text, "{}", runs.join(" "))?;
        if !is_junk(&self.0[0]) || !is_junk(&self.0[end]) {
            write!(text, " (and what lies beside it has changed)")?;
        }
        Ok(())
    }
}

#[cfg(test)]
mod tests {
    use super::*;

    #[test]
    fn the_fences_are_not_lent() {
        let mut fenced = Fenced::holding(&[1u8, 2, 3]);
        assert_eq!(fenced.lent(), [1, 2, 3]);
        fenced.lent().fill(9);
        assert_eq!(fenced, Fenced::holding(&[9, 9, 9]));
        assert_eq!(Fenced::<u8>::room(0).lent(), []);
    }

    #[test]
    fn junk_is_told_by_its_length() {
        let mut list = Fenced::<i32>::room(256);
        list.lent()[..2].copy_from_slice(&[5, 6]);
        assert_eq!(list.to_string(), "5 6 (254 not written)");
        assert_eq!(Fenced::<i32>::room(0).to_string(), "(no room)");
    }

    #[test]
    fn a_change_beside_what_is_lent_is_told() {
        let mut fenced = Fenced::holding(&[1u8]);
        assert_eq!(fenced.to_string(), "1");
        fenced.0[2] = 5;
        assert_ne!(fenced, Fenced::holding(&[1]));
        assert_eq!(
            fenced.to_string(),
            "1 (and what lies beside it has changed)"
        );
    }
}
