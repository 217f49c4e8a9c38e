//! Looking up in two full stores.

use super::job::{alike, Job, Measured};
use super::stores::{full_store, LARGEST};
use crate::archive;
use crate::plain::refusals::Refusal;
use crate::plain::store::{look_up, Store};
use std::hint::black_box;
use std::ops::Range;

pub fn jobs() -> Vec<Measured> {
    vec![Measured {
        name: "look up",
        size: "two 64 KiB stores",
        unit: "byte of store and call",
        half: looking_up(LARGEST / 2),
        full: looking_up(LARGEST),
    }]
}

struct LookingUp {
    volatile: Vec<u8>,
    saved: Vec<u8>,
    numbers: Vec<i32>,
}

/// The first, the middle and the last macro of either store, and one that is in neither.
fn looking_up(length: usize) -> Box<dyn Job> {
    let (volatile, count) = full_store(length, 0);
    let (saved, _) = full_store(length, 1);
    let mut numbers = vec![32767];
    for number in [0, count / 2 * 2, (count - 1) * 2] {
        numbers.extend([number, number + 1]);
    }
    Box::new(LookingUp {
        volatile,
        saved,
        numbers,
    })
}

type Found = Result<(Store, Range<usize>), Refusal>;
type LookUp = fn(&[u8], &[u8], i32) -> Found;

/// What `ardh_look_up` tells.
fn told(found: Found) -> (u8, [usize; 3]) {
    match found {
        Ok((Store::Volatile, body)) => (0, [1, body.start, body.len()]),
        Ok((Store::Saved, body)) => (0, [2, body.start, body.len()]),
        Err(refusal) => (refusal.number(), [0; 3]),
    }
}

impl LookingUp {
    fn compare_in(&self, volatile: &[u8], saved: &[u8]) -> Result<(), String> {
        for &number in self.numbers.iter().chain(&[-1, 32768]) {
            let mut place = [9; 3];
            let refused = archive::look_up(volatile, saved, number, &mut place);
            let plain = look_up(volatile, saved, number);
            alike((refused, place), told(plain), number)?;
        }
        Ok(())
    }
}

impl Job for LookingUp {
    fn units(&self) -> usize {
        (self.volatile.len() + self.saved.len()) * self.numbers.len()
    }

    fn compare(&mut self) -> Result<(), String> {
        let mut malformed = self.saved.clone();
        malformed[3] = 128;
        self.compare_in(&self.volatile, &self.saved)?;
        self.compare_in(&self.volatile, &malformed)?;
        self.compare_in(&malformed, &self.saved)?;
        self.compare_in(&[], &self.saved)
    }

    fn run_archive(&mut self) {
        let mut place = [0; 3];
        for &number in &self.numbers {
            black_box(archive::look_up(
                &self.volatile,
                &self.saved,
                number,
                &mut place,
            ));
            black_box(&place);
        }
    }

    fn run_plain(&mut self) {
        let look_up = black_box(look_up as LookUp);
        for &number in &self.numbers {
            let _ = black_box(look_up(&self.volatile, &self.saved, number));
        }
    }
}
