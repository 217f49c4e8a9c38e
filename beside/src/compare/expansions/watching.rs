//! What an expansion that was done met, for the table.

use std::collections::BTreeSet;

use second::commands::Value;
use second::items::{item_at, Item};
use second::parameters::DEL;
use second::remembered::{DelMode, Remembered};
use second::store::Stores;

use crate::compare::names::*;

/// From the start of an expansion to its end. Each thing is named once, however often it was met.
pub fn watched(stores: Stores, before: Remembered, number: i32) -> Vec<Name> {
    let mut watch = Watch {
        stores,
        remembered: before,
        met: BTreeSet::new(),
    };
    watch.call(number);
    let Watch {
        mut met,
        remembered: after,
        ..
    } = watch;
    met.extend(match (before.mode, after.mode) {
        (DelMode::Data, DelMode::Filler) => Some(MODE_SET),
        (DelMode::Filler, DelMode::Data) => Some(MODE_CLEARED),
        _ => None,
    });
    met.extend((before.point != after.point).then_some(POINT_MOVED));
    met.into_iter().collect()
}

struct Watch<'a> {
    stores: Stores<'a>,
    remembered: Remembered,
    met: BTreeSet<Name>,
}

impl Watch<'_> {
    fn call(&mut self, number: i32) {
        let mode = self.remembered.mode;
        match self.stores.find(number) {
            Ok(body) => self.enter(body),
            Err(_) if mode == DelMode::Filler => {
                self.met.insert(ABSENT);
            }
            Err(_) => {}
        }
    }

    fn enter(&mut self, body: &[u8]) {
        let mut start = 0;
        while let Some(read) = item_at(body, start, self.remembered) {
            let is_filler = self.remembered.mode == DelMode::Filler;
            let has_del = body[start..read.next].contains(&DEL);
            self.remembered = read.remembered;
            let (name, call) = match &read.item {
                Item::Del { .. } => (ITEM_COPIED, None),
                Item::Command { command, .. } if command.letters == *b"KX" => {
                    (LEFT_OUT, command.values.first())
                }
                _ => (COMMAND_COPIED, None),
            };
            let name = if is_filler { name } else { DATA_COPIED };
            self.met.extend(has_del.then_some(name));
            if let Some(Value::Integer(number)) = call {
                self.nested(*number);
            }
            start = read.next;
        }
    }

    /// "A KI in a body holds from there on."
    fn nested(&mut self, number: i32) {
        let before = self.remembered.mode;
        self.call(number);
        self.met
            .extend((self.remembered.mode != before).then_some(MODE_HELD));
    }
}

#[cfg(test)]
mod tests {
    use super::*;
    use second::store::append_entry;

    fn met(mode: DelMode, bodies: &[&[u8]]) -> Vec<Name> {
        let mut store = Vec::new();
        for (number, body) in (1..).zip(bodies) {
            append_entry(&mut store, number, body);
        }
        let stores = Stores::read(&store, &[]).unwrap();
        watched(stores, Remembered::fresh_in(mode), 1)
    }

    #[test]
    fn what_bodies_hold() {
        assert_eq!(met(DelMode::Filler, &[b"\x7f"]), [ITEM_COPIED]);
        assert_eq!(met(DelMode::Filler, &[b"\x1bK\x7fA0"]), [COMMAND_COPIED]);
        assert_eq!(met(DelMode::Data, &[b"\x7f"]), [DATA_COPIED]);
        let absent = [LEFT_OUT, ABSENT];
        assert_eq!(met(DelMode::Filler, &[b"\x1bKX\x7f9"]), absent);
        assert_eq!(met(DelMode::Data, &[b"\x1bLFy@"]), [POINT_MOVED]);
    }

    #[test]
    fn what_ki_does_on_the_way() {
        assert_eq!(met(DelMode::Data, &[b"\x1bKI1"]), [MODE_SET]);
        assert_eq!(met(DelMode::Filler, &[b"\x1bKI0"]), [MODE_CLEARED]);
        let nested = [MODE_HELD, MODE_SET];
        assert_eq!(met(DelMode::Data, &[b"\x1bKX2", b"\x1bKI1"]), nested);
        let there_and_back = [b"\x1bKX2\x1bKI0".as_slice(), b"\x1bKI1"];
        assert_eq!(met(DelMode::Data, &there_and_back), [MODE_HELD]);
    }
}
