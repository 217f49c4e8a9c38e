//! The pixel writes of a picture.

use super::job::{alike, Job, Measured};
use super::pictures::{filling_writes, raster_writes, run_writes, Write};
use crate::archive;
use crate::plain::pixels::{draw_raster, draw_runs};
use crate::plain::record::Record;
use crate::plain::refusals::Refusal;
use std::hint::black_box;

pub fn jobs() -> Vec<Measured> {
    let of = |name, size, w, h, writes: fn(usize, usize) -> Vec<Write>| Measured {
        name,
        size,
        unit: "pixel",
        half: painting(w, h / 2, writes(w, h / 2)),
        full: painting(w, h, writes(w, h)),
    };
    vec![
        of("picture by RP", "480 by 360", 480, 360, raster_writes),
        of("picture by RL", "480 by 360", 480, 360, run_writes),
        of("filled by RL", "512 by 512", 512, 512, filling_writes),
    ]
}

struct Painting {
    w: usize,
    h: usize,
    writes: Vec<Write>,
    surface: Vec<u8>,
}

fn painting(w: usize, h: usize, writes: Vec<Write>) -> Box<dyn Job> {
    let surface = vec![0; w * h];
    Box::new(Painting {
        w,
        h,
        writes,
        surface,
    })
}

/// The record of the whole surface with three bits.
fn whole(w: usize, h: usize) -> [usize; 7] {
    [3, 0, 0, w - 1, h - 1, 0, h - 1]
}

fn record_of(fields: [usize; 7]) -> Record {
    let [bits, left, bottom, right, top, x, y] = fields;
    Record {
        bits,
        left,
        bottom,
        right,
        top,
        x,
        y,
    }
}

type Raster = fn(&mut [u8], usize, usize, &mut Record, i32, &[i32]) -> Result<usize, Refusal>;
type Runs = fn(&mut [u8], usize, usize, &mut Record, &[i32]) -> Result<usize, Refusal>;

/// The plain program's two writes.
#[derive(Clone, Copy)]
struct Calls {
    raster: Raster,
    runs: Runs,
}

const CALLS: Calls = Calls {
    raster: draw_raster,
    runs: draw_runs,
};

type Size = (usize, usize);

fn archive_write(
    surface: &mut [u8],
    (w, h): Size,
    record: &mut [usize; 7],
    write: &Write,
) -> (u8, usize) {
    let mut count = 0;
    let entries = &write.entries;
    let number = match write.n {
        Some(n) => archive::draw_raster(surface, w, h, record, n, entries, &mut count),
        None => archive::draw_runs(surface, w, h, record, entries, &mut count),
    };
    (number, count)
}

fn plain_write(
    calls: Calls,
    surface: &mut [u8],
    (w, h): Size,
    record: &mut Record,
    write: &Write,
) -> Result<usize, Refusal> {
    match write.n {
        Some(n) => (calls.raster)(surface, w, h, record, n, &write.entries),
        None => (calls.runs)(surface, w, h, record, &write.entries),
    }
}

/// Writes that are refused: a character or a code that may not be, one too many, an N that is not theirs.
fn refused_writes(write: &Write) -> Vec<Write> {
    let with = |n: Option<i32>, last: i32, more: usize| {
        let mut entries = write.entries.clone();
        entries.pop();
        entries.push(last);
        entries.extend(vec![32; more]);
        Write { n, entries }
    };
    let n = write.n;
    vec![
        with(n, -1, 0),
        with(n, 32768, 0),
        with(n, 32, 257),
        with(n.map(|_| 32768), 32, 0),
        with(n.map(|n| n + 1), 32, 0),
    ]
}

/// RP with ends of row: first, last, twice running, alone, as many as a list can have; and refused ones.
fn ended_writes() -> Vec<Write> {
    let write = |n, entries: &[i32]| Write {
        n: Some(n),
        entries: entries.to_vec(),
    };
    vec![
        write(3, &[96, 42, 96, 96, 60, 96]),
        write(4, &[42, 96, 60]),
        write(0, &[96]),
        write(0, &[96; 256]),
        write(0, &[96; 257]),
        write(3, &[42, 96]),
        write(2, &[42, 96, 97]),
    ]
}

impl Painting {
    /// Both programs do a write, on surfaces and with records that are alike.
    fn compare_write(
        &self,
        surfaces: &mut [Vec<u8>; 2],
        records: &mut ([usize; 7], Record),
        write: &Write,
    ) -> Result<(), String> {
        let size = (self.w, self.h);
        let [archive_surface, surface] = surfaces;
        let archive = archive_write(archive_surface, size, &mut records.0, write);
        let plain = match plain_write(CALLS, surface, size, &mut records.1, write) {
            Ok(count) => (0, count),
            Err(refusal) => (refusal.number(), 0),
        };
        alike(archive, plain, "a write")?;
        alike(record_of(records.0), records.1, "the record behind a write")?;
        if archive_surface != surface {
            return Err("the surfaces differ".to_string());
        }
        Ok(())
    }
}

impl Job for Painting {
    fn units(&self) -> usize {
        self.w * self.h
    }

    fn compare(&mut self) -> Result<(), String> {
        let mut surfaces = [vec![9; self.w * self.h], vec![9; self.w * self.h]];
        let fields = whole(self.w, self.h);
        let mut records = (fields, record_of(fields));
        for write in &self.writes {
            self.compare_write(&mut surfaces, &mut records, write)?;
        }
        for field in 0..7 {
            let mut fields = fields;
            fields[field] = 0;
            fields[field] = fields[field].wrapping_sub(field % 2);
            let mut records = (fields, record_of(fields));
            self.compare_write(&mut surfaces, &mut records, &self.writes[0])?;
        }
        let refused = refused_writes(&self.writes[0]).into_iter();
        for write in refused.chain(ended_writes()) {
            self.compare_write(&mut surfaces, &mut records, &write)?;
        }
        Ok(())
    }

    fn run_archive(&mut self) {
        let size = (self.w, self.h);
        let mut record = whole(self.w, self.h);
        for write in &self.writes {
            black_box(archive_write(&mut self.surface, size, &mut record, write));
        }
        black_box(&self.surface);
    }

    fn run_plain(&mut self) {
        let calls = black_box(CALLS);
        let size = (self.w, self.h);
        let mut record = record_of(whole(self.w, self.h));
        for write in &self.writes {
            let _ = black_box(plain_write(
                calls,
                &mut self.surface,
                size,
                &mut record,
                write,
            ));
        }
        black_box(&self.surface);
    }
}
