//! The commands of a stream, written again.

use super::job::{alike, Job, Measured};
use super::streams::{array_stream, mixed_stream, string_stream};
use crate::archive;
use crate::plain::items::{next_item, Item};
use crate::plain::refusals::Refusal;
use crate::plain::remembered::Remembered;
use crate::plain::writing::write_command;
use std::hint::black_box;

const STREAM: usize = 1_000_000;
const ROOM: usize = 1000;

pub fn jobs() -> Vec<Measured> {
    let of = |name, stream: fn(usize) -> Vec<u8>| Measured {
        name,
        size: "1 MB",
        unit: "byte",
        half: writing(&stream(STREAM / 2)),
        full: writing(&stream(STREAM)),
    };
    vec![
        of("writing, mixed", mixed_stream),
        of("writing, long arrays", array_stream),
        of("writing, long strings", string_stream),
    ]
}

struct Written {
    letters: [u8; 2],
    values: [i32; 4],
    list: Vec<i32>,
}

struct Writing {
    commands: Vec<Written>,
    /// As long as all commands together.
    out: Vec<u8>,
}

fn writing(stream: &[u8]) -> Box<dyn Job> {
    let commands = commands_of(stream);
    let mut bytes = 0;
    let mut out = [0; ROOM];
    let mut remembered = Remembered::FRESH;
    for command in &commands {
        bytes += plain_write(write_command, command, &mut remembered, &mut out)
            .expect("what was read can be written");
    }
    Box::new(Writing {
        commands,
        out: vec![0; bytes],
    })
}

fn commands_of(stream: &[u8]) -> Vec<Written> {
    let mut commands = Vec::new();
    let mut remembered = Remembered::FRESH;
    let mut list = [0; 256];
    let mut at = 0;
    loop {
        let item = next_item(stream, at, &mut remembered, &mut list);
        if let Item::Command { command, .. } = item {
            commands.push(Written {
                letters: command.letters,
                values: command.values,
                list: list[..command.entries].to_vec(),
            });
        }
        match item.next() {
            Some(next) => at = next,
            None => return commands,
        }
    }
}

type Write = fn([u8; 2], &[i32; 4], &[i32], &mut Remembered, &mut [u8]) -> Result<usize, Refusal>;

fn plain_write(
    write: Write,
    command: &Written,
    remembered: &mut Remembered,
    out: &mut [u8],
) -> Result<usize, Refusal> {
    let Written {
        letters,
        values,
        list,
    } = command;
    write(*letters, values, list, remembered, out)
}

fn archive_write(command: &Written, remembered: &mut [u16; 3], out: &mut [u8]) -> (u8, usize) {
    let mut written = 0;
    let Written {
        letters,
        values,
        list,
    } = command;
    let number = archive::write_command(*letters, values, list, remembered, out, &mut written);
    (number, written)
}

/// Both programs write a command into so much room, from what the same is remembered.
fn compare_in(
    command: &Written,
    remembered: &mut (Remembered, [u16; 3]),
    room: usize,
) -> Result<(), String> {
    let name = String::from_utf8_lossy(&command.letters).into_owned();
    let (plain_remembered, archive_remembered) = remembered;
    let mut outs = [[9; ROOM], [9; ROOM]];
    let archive = archive_write(command, archive_remembered, &mut outs[0][..room]);
    let plain = match plain_write(
        write_command,
        command,
        plain_remembered,
        &mut outs[1][..room],
    ) {
        Ok(written) => (0, written),
        Err(refusal) => (refusal.number(), 0),
    };
    alike(archive, plain, &name)?;
    alike(outs[0], outs[1], &name)?;
    alike(*archive_remembered, plain_remembered.numbers(), &name)
}

impl Job for Writing {
    fn units(&self) -> usize {
        self.out.len()
    }

    fn compare(&mut self) -> Result<(), String> {
        let mut remembered = (Remembered::FRESH, Remembered::FRESH.numbers());
        for command in &self.commands {
            let mut from = remembered;
            let length = 3 + command.list.len();
            for room in [0, 4, length] {
                compare_in(command, &mut from, room)?;
                from = remembered;
            }
            compare_in(command, &mut remembered, ROOM)?;
        }
        self.run_archive();
        let archive = self.out.clone();
        self.out.fill(9);
        self.run_plain();
        if archive != self.out {
            return Err("the whole of what is written".to_string());
        }
        Ok(())
    }

    fn run_archive(&mut self) {
        let mut remembered = [0; 3];
        let mut at = 0;
        for command in &self.commands {
            let (_, written) = archive_write(command, &mut remembered, &mut self.out[at..]);
            at += written;
        }
        black_box(&self.out);
    }

    fn run_plain(&mut self) {
        let write = black_box(write_command as Write);
        let mut remembered = Remembered::FRESH;
        let mut at = 0;
        for command in &self.commands {
            let written = plain_write(write, command, &mut remembered, &mut self.out[at..]);
            at += written.unwrap_or(0);
        }
        black_box(&self.out);
    }
}
