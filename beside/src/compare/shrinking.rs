//! A case that differs made smaller, step by step, while it differs.

use std::panic::{set_hook, take_hook};

use super::case::{attempt, Case, Difference};
use super::tally::Row;

/// Enough for the longest streams and sequences; a stop for a difference that comes and goes.
const MOST_TRIES: usize = 200_000;

/// The smallest case found, and its difference. Where a side stops in the middle its message has been shown; the tries need not repeat it.
fn smallest<C: Case>(case: C, difference: Difference) -> (C, Difference) {
    let hook = take_hook();
    set_hook(Box::new(|_| {}));
    let found = step_by_step(case, difference);
    set_hook(hook);
    found
}

fn step_by_step<C: Case>(case: C, difference: Difference) -> (C, Difference) {
    let mut found = (case, difference);
    let mut tries = 0;
    while tries < MOST_TRIES {
        let smaller = found.0.smaller().into_iter().find_map(|smaller| {
            tries += 1;
            let difference = attempt(&smaller, &mut Row::default()).err()?;
            Some((smaller, difference))
        });
        match smaller {
            Some(smaller) => found = smaller,
            None => break,
        }
    }
    found
}

/// Runs a case and notes its answers. The text of a difference has the smallest input found.
pub fn compared<C: Case>(case: C, row: &mut Row) -> Result<(), String> {
    attempt(&case, row).map_err(|difference| {
        let (case, difference) = smallest(case.clone(), difference);
        format!("{case}\n{difference}")
    })
}

/// The case with another value in one place, for each of these values.
pub fn with_each<C: Clone, V>(case: &C, values: Vec<V>, put: impl Fn(&mut C, V)) -> Vec<C> {
    let values = values.into_iter();
    values
        .map(|value| {
            let mut other = case.clone();
            put(&mut other, value);
            other
        })
        .collect()
}

/// The list with a stretch left out: the greatest stretches first, then ever shorter ones.
pub fn shorter<T: Clone>(list: &[T]) -> Vec<Vec<T>> {
    let mut lists = Vec::new();
    let mut stretch = list.len();
    while stretch > 0 {
        for start in (0..=list.len() - stretch).step_by(stretch) {
            lists.push([&list[..start], &list[start + stretch..]].concat());
        }
        stretch /= 2;
    }
    lists
}

/// Every kind of number that a case is made of.
pub trait Number: Copy + TryInto<i128> + TryFrom<i128> {}

impl<T: Copy + TryInto<i128> + TryFrom<i128>> Number for T {}

/// Numbers nearer to nought: nought itself, the half, and the next.
pub fn lower<T: Number>(number: T) -> Vec<T> {
    let Ok(number) = number.try_into() else {
        return vec![];
    };
    let mut nearer = vec![0, number / 2, number - number.signum()];
    nearer.dedup();
    nearer.retain(|&other| other != number);
    nearer.into_iter().flat_map(T::try_from).collect()
}

/// The list with one entry lowered.
pub fn lowered<T: Number>(list: &[T]) -> Vec<Vec<T>> {
    let mut lists = Vec::new();
    for place in 0..list.len() {
        for entry in lower(list[place]) {
            let mut lowered = list.to_vec();
            lowered[place] = entry;
            lists.push(lowered);
        }
    }
    lists
}

/// The list shorter, and then with one entry lowered.
pub fn lesser<T: Number>(list: &[T]) -> Vec<Vec<T>> {
    let mut lists = shorter(list);
    lists.extend(lowered(list));
    lists
}

/// The bytes without some of those before a start, and where the start is then.
pub fn without_front(bytes: &[u8], start: usize) -> Vec<(Vec<u8>, usize)> {
    if start == 0 || start > bytes.len() {
        return vec![];
    }
    vec![
        (bytes[start..].to_vec(), 0),
        (bytes[1..].to_vec(), start - 1),
    ]
}

/// An array, whose length is fixed, with one entry lowered.
pub fn lowered_array<T: Number, const N: usize>(array: [T; N]) -> Vec<[T; N]> {
    let lists = lowered(&array);
    lists.into_iter().flat_map(|list| list.try_into()).collect()
}

#[cfg(test)]
mod tests {
    use super::*;
    use crate::compare::case::same;
    use std::fmt;

    /// Differs where the list holds two numbers above 40 and a negative one.
    #[derive(Clone, Debug, PartialEq)]
    struct Numbers(Vec<i32>);

    impl fmt::Display for Numbers {
        fn fmt(&self, text: &mut fmt::Formatter) -> fmt::Result {
            write!(text, "{:?}", self.0)
        }
    }

    impl Case for Numbers {
        fn run(&self, _: &mut Row) -> Result<(), Difference> {
            let high = self.0.iter().filter(|&&number| number > 40).count();
            let negative = self.0.iter().any(|&number| number < 0);
            same(String::new, &(high >= 2 && negative), &false)
        }

        fn smaller(&self) -> Vec<Numbers> {
            lesser(&self.0).into_iter().map(Numbers).collect()
        }
    }

    #[test]
    fn what_is_not_needed_goes() {
        let list: Vec<i32> = (-300..300).collect();
        let case = Numbers(list);
        let difference = case.run(&mut Row::default()).unwrap_err();
        let (smallest, _) = smallest(case, difference);
        assert_eq!(smallest, Numbers(vec![-1, 41, 41]));
    }

    /// Stops in the middle where the list holds a 13.
    #[derive(Clone)]
    struct Unlucky(Vec<i32>);

    impl fmt::Display for Unlucky {
        fn fmt(&self, text: &mut fmt::Formatter) -> fmt::Result {
            write!(text, "{:?}", self.0)
        }
    }

    impl Case for Unlucky {
        fn run(&self, _: &mut Row) -> Result<(), Difference> {
            assert!(!self.0.contains(&13));
            Ok(())
        }

        fn smaller(&self) -> Vec<Unlucky> {
            shorter(&self.0).into_iter().map(Unlucky).collect()
        }
    }

    #[test]
    fn a_side_that_stops_is_a_difference() {
        let case = Unlucky((0..20).collect());
        let difference = attempt(&case, &mut Row::default()).unwrap_err();
        let (smallest, difference) = smallest(case, difference);
        assert_eq!(smallest.0, [13]);
        assert!(difference.to_string().contains("a panic"));
    }

    #[test]
    fn stretches_are_left_out_the_longest_first() {
        let expected: [&[i32]; 4] = [&[], &[2, 3], &[1, 3], &[1, 2]];
        assert_eq!(shorter(&[1, 2, 3]), expected);
        assert_eq!(shorter::<i32>(&[]), Vec::<Vec<i32>>::new());
        assert_eq!(
            shorter(&[1, 2, 3, 4])[..3],
            [vec![], vec![3, 4], vec![1, 2]]
        );
    }

    #[test]
    fn the_start_goes_with_the_bytes_before_it() {
        let expected = [(vec![9], 0), (vec![8, 9], 1)];
        assert_eq!(without_front(&[7, 8, 9], 2), expected);
        assert_eq!(without_front(&[7], 0), []);
        assert_eq!(without_front(&[7], 2), []);
    }

    #[test]
    fn numbers_go_towards_nought() {
        assert_eq!(lower(0u8), []);
        assert_eq!(lower(1u8), [0]);
        assert_eq!(lower(2u16), [0, 1]);
        assert_eq!(lower(-9), [0, -4, -8]);
        assert_eq!(lower(i32::MIN), [0, i32::MIN / 2, i32::MIN + 1]);
        assert_eq!(lower(usize::MAX)[1], usize::MAX / 2);
        assert_eq!(lowered_array([1, 0, 2]), [[0, 0, 2], [1, 0, 0], [1, 0, 1]]);
    }
}
