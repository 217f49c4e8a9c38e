//! Defining in a full store.

use super::job::{alike, Job, Measured};
use super::stores::{full_store, LARGEST};
use crate::archive;
use crate::plain::refusals::Refusal;
use crate::plain::store::{define, look_up};
use std::hint::black_box;

pub fn jobs() -> Vec<Measured> {
    vec![Measured {
        name: "define",
        size: "64 KiB store",
        unit: "byte of store and call",
        half: defining(LARGEST / 2),
        full: defining(LARGEST),
    }]
}

type Definition = (i32, Vec<i32>);

struct Defining {
    store: Vec<u8>,
    definitions: Vec<Definition>,
}

/// The first, the middle and the last macro: each is shortened, put back, deleted and set again, so that the store is then as it was;
/// and a macro is set for which there is no room.
fn defining(length: usize) -> Box<dyn Job> {
    let (store, count) = full_store(length, 0);
    let mut definitions = Vec::new();
    for number in [0, count / 2 * 2, (count - 1) * 2] {
        let (_, body) = look_up(&store, &[], number).expect("the store holds the macro");
        let body: Vec<i32> = store[body].iter().map(|&byte| byte.into()).collect();
        definitions.push((number, vec![65]));
        definitions.push((number, body.clone()));
        definitions.push((number, vec![]));
        definitions.push((number, body));
        definitions.push((number + 1, vec![65; 256]));
    }
    Box::new(Defining { store, definitions })
}

type Define = fn(&mut [u8], i32, &[i32]) -> Result<(), Refusal>;

impl Job for Defining {
    fn units(&self) -> usize {
        self.store.len() * self.definitions.len()
    }

    fn compare(&mut self) -> Result<(), String> {
        let mut stores = [self.store.clone(), self.store.clone()];
        let mut definitions = self.definitions.clone();
        definitions.extend([(-1, vec![65]), (2, vec![128]), (2, vec![0; 257])]);
        for (number, contents) in &definitions {
            let archive = archive::define(&mut stores[0], *number, contents);
            let plain = define(&mut stores[1], *number, contents);
            alike(archive, plain.map_or_else(Refusal::number, |()| 0), number)?;
            if stores[0] != stores[1] {
                return Err(format!("{number}: the stores differ"));
            }
        }
        if stores[0] != self.store {
            return Err("the store is not as it was".to_string());
        }
        Ok(())
    }

    fn run_archive(&mut self) {
        for (number, contents) in &self.definitions {
            black_box(archive::define(&mut self.store, *number, contents));
        }
    }

    fn run_plain(&mut self) {
        let define = black_box(define as Define);
        for (number, contents) in &self.definitions {
            let _ = black_box(define(&mut self.store, *number, contents));
        }
    }
}
