//! The deepest expansion: depth 8 and 1,024 macros entered.

use super::job::{alike, Job, Measured};
use super::stores::{full_store, LARGEST};
use crate::archive;
use crate::plain::expansion::{expand, Expanded};
use crate::plain::refusals::Refusal;
use crate::plain::remembered::Remembered;
use crate::plain::store::define;
use std::hint::black_box;

const SMALL: usize = 512;
const ROOM: usize = 1 << 16;
/// The numbers of the eight macros follow this one; those of full stores are below it.
const BASE: i32 = 32000;

pub fn jobs() -> Vec<Measured> {
    let of = |name, size, stores: fn(i32) -> Stores| Measured {
        name,
        size,
        unit: "macro entered",
        half: Box::new(Expanding::new(stores(6), 512)),
        full: Box::new(Expanding::new(stores(14), 1024)),
    };
    vec![
        of("expansion", "two 512 byte stores", small_stores),
        of("expansion", "two 64 KiB stores", large_stores),
    ]
}

pub struct Stores {
    pub volatile: Vec<u8>,
    pub saved: Vec<u8>,
}

pub fn small_stores(calls: i32) -> Stores {
    let mut saved = vec![0; SMALL];
    put_tree(&mut saved, calls);
    Stores {
        volatile: vec![0; SMALL],
        saved,
    }
}

/// The macros stand last in the store that is looked at last.
pub fn large_stores(calls: i32) -> Stores {
    let (volatile, _) = full_store(LARGEST, 0);
    let (mut saved, _) = full_store(LARGEST - SMALL, 1);
    saved.resize(LARGEST, 0);
    put_tree(&mut saved, calls);
    Stores { volatile, saved }
}

/// The macros of depth 1 to 6 call the next twice, that of depth 7 calls the last so many times, and the first calls the last once more.
/// So 127 macros, 64 times `calls` and one more are entered.
fn put_tree(store: &mut [u8], calls: i32) {
    for depth in 1..=8 {
        let mut body = vec![65];
        let times = match depth {
            1..=6 => 2,
            7 => calls,
            _ => 0,
        };
        for _ in 0..times {
            body.extend(call_of(BASE + depth + 1));
        }
        if depth == 1 {
            body.extend(call_of(BASE + 8));
        }
        if depth == 8 {
            body.extend(b"BC\x1bLF7o\x7f?_\x1bLT4text\x1bRL3012D");
        }
        let contents: Vec<i32> = body.iter().map(|&byte| byte.into()).collect();
        define(store, BASE + depth, &contents).expect("the store has room for the macros");
    }
}

fn call_of(number: i32) -> Vec<u8> {
    let mut call = b"\x1bKX".to_vec();
    call.extend([
        64 + (number >> 10) as u8,
        64 + (number >> 4 & 63) as u8,
        48 + (number & 15) as u8,
    ]);
    call
}

pub const START: i32 = BASE + 1;

struct Expanding {
    stores: Stores,
    entered: usize,
    out: Vec<u8>,
}

impl Expanding {
    fn new(stores: Stores, entered: usize) -> Expanding {
        Expanding {
            stores,
            entered,
            out: vec![0; ROOM],
        }
    }
}

type Expand = fn(&[u8], &[u8], i32, &mut Remembered, &mut [u8]) -> Result<Expanded, Refusal>;

/// From what is remembered when fresh; what is remembered then comes with the answer.
fn archive_expand(stores: &Stores, number: i32, out: &mut [u8]) -> (u8, [usize; 2], [u16; 3]) {
    let Stores { volatile, saved } = stores;
    let mut remembered = Remembered::FRESH.numbers();
    let mut counts = [0; 2];
    let refused = archive::expand(volatile, saved, number, &mut remembered, out, &mut counts);
    (refused, counts, remembered)
}

/// Both programs expand a macro into so much room. What it then holds is handed back with the answer.
fn compare_in(stores: &Stores, number: i32, room: usize) -> Result<(u8, [usize; 2]), String> {
    let mut outs = [vec![9; room], vec![9; room]];
    let (refused, counts, remembered) = archive_expand(stores, number, &mut outs[0]);
    let Stores { volatile, saved } = stores;
    let mut kept = Remembered::FRESH;
    let plain = match expand(volatile, saved, number, &mut kept, &mut outs[1]) {
        Ok(done) => (0, [done.written, done.entered]),
        Err(refusal) => (refusal.number(), [0; 2]),
    };
    alike((refused, counts), plain, number)?;
    alike(remembered, kept.numbers(), number)?;
    if outs[0] != outs[1] {
        return Err(format!("{number}: what is written differs"));
    }
    Ok((refused, counts))
}

impl Job for Expanding {
    fn units(&self) -> usize {
        self.entered
    }

    fn compare(&mut self) -> Result<(), String> {
        let done = compare_in(&self.stores, START, ROOM)?;
        alike(done.1[1], self.entered, "macros entered")?;
        let short = compare_in(&self.stores, START, done.1[0] - 1)?;
        alike(short.0, 7, "one byte too few")?;
        for number in [-1, 32768, BASE, BASE + 5, BASE + 8] {
            compare_in(&self.stores, number, ROOM)?;
        }
        let mut too_many = small_stores(15);
        let told = compare_in(&too_many, START, ROOM)?;
        alike(told.0, 16, "more than 1,024 macros")?;
        let again: Vec<i32> = call_of(START).iter().map(|&byte| byte.into()).collect();
        define(&mut too_many.saved, BASE + 8, &again).map_err(|_| "no room".to_string())?;
        let told = compare_in(&too_many, START, ROOM)?;
        alike(told.0, 15, "a call at depth 8")
    }

    fn run_archive(&mut self) {
        black_box(archive_expand(&self.stores, START, &mut self.out));
    }

    fn run_plain(&mut self) {
        let expand = black_box(expand as Expand);
        let Stores { volatile, saved } = &self.stores;
        let mut remembered = Remembered::FRESH;
        let _ = black_box(expand(
            volatile,
            saved,
            START,
            &mut remembered,
            &mut self.out,
        ));
    }
}
