//! Macros expanded: a body's items, with each KX replaced.

use crate::answers::Refusal;
use crate::commands::{Command, Value};
use crate::items::{item_at, Item};
use crate::remembered::Remembered;
use crate::store::Stores;

const DEEPEST: u32 = 8;
const MOST_ENTERED: usize = 1024;

/// "The answer gives bytes written and macros entered." What is then remembered goes with it.
#[derive(Clone, Copy, Debug, PartialEq, Eq)]
pub struct Expanded {
    pub bytes: usize,
    pub entered: usize,
    pub remembered: Remembered,
}

pub fn expand(
    volatile: &[u8],
    saved: &[u8],
    number: i32,
    remembered: Remembered,
    out: &mut [u8],
) -> Result<Expanded, Refusal> {
    // "The start first gives 12 .., 8, 14."
    let stores = Stores::read(volatile, saved)?;
    if !remembered.in_range() {
        return Err(Refusal::NotValid);
    }
    let body = stores.find(number)?;
    let mut expanding = Expanding {
        stores: &stores,
        remembered,
        entered: 0,
        result: Vec::new(),
    };
    expanding.enter(body, 1)?;
    let bytes = expanding.result.len();
    // "Refusal 7 comes last, only when nothing else is wrong."
    let room = out.get_mut(..bytes).ok_or(Refusal::TooShort)?;
    room.copy_from_slice(&expanding.result);
    Ok(Expanded {
        bytes,
        entered: expanding.entered,
        remembered: expanding.remembered,
    })
}

struct Expanding<'a> {
    stores: &'a Stores<'a>,
    remembered: Remembered,
    entered: usize,
    result: Vec<u8>,
}

impl Expanding<'_> {
    /// "Macro bodies are read in the caller's mode, and a KI in a body holds from there on": so behind a KX this body is read in the mode
    /// that the macro called has left.
    fn enter(&mut self, body: &[u8], depth: u32) -> Result<(), Refusal> {
        self.entered += 1;
        let mut start = 0;
        while let Some(read) = item_at(body, start, self.remembered) {
            self.remembered = read.remembered;
            match &read.item {
                Item::RefusedCommand { .. } => return Err(Refusal::BodyRefused),
                Item::Command { command, .. } if command.letters == *b"KX" => {
                    self.call(number_of(command), depth)?;
                }
                _ => self.result.extend(&body[start..read.next]),
            }
            start = read.next;
        }
        Ok(())
    }

    /// "At a KX: a negative number is 8, then 15, look up, then 16."
    fn call(&mut self, number: i32, depth: u32) -> Result<(), Refusal> {
        if number < 0 {
            return Err(Refusal::NotValid);
        }
        if depth == DEEPEST {
            return Err(Refusal::TooDeep);
        }
        // "An absent nested macro gives nothing and isn't entered."
        let Ok(body) = self.stores.find(number) else {
            return Ok(());
        };
        if self.entered == MOST_ENTERED {
            return Err(Refusal::TooManyMacros);
        }
        self.enter(body, depth + 1)
    }
}

fn number_of(call: &Command) -> i32 {
    match call.values[..] {
        [Value::Integer(number)] => number,
        _ => unreachable!("KX has one integer"),
    }
}

#[cfg(test)]
mod tests {
    use super::*;
    use crate::integers::spell_integer;
    use crate::points::Point;
    use crate::store::define;

    fn call(number: i32) -> Vec<u8> {
        [b"\x1bKX".to_vec(), spell_integer(number).unwrap()].concat()
    }

    fn store_of(macros: &[(i32, Vec<u8>)]) -> Vec<u8> {
        let mut store = vec![0; 3000];
        for (number, body) in macros {
            let contents: Vec<i32> = body.iter().map(|&byte| i32::from(byte)).collect();
            define(&mut store, *number, &contents).unwrap();
        }
        store
    }

    fn expansion(macros: &[(i32, Vec<u8>)], number: i32) -> Result<(Vec<u8>, usize), Refusal> {
        let mut out = [255; 3000];
        let store = store_of(macros);
        let expanded = expand(&store, &[], number, Remembered::FRESH, &mut out)?;
        assert!(out[expanded.bytes..].iter().all(|&byte| byte == 255));
        Ok((out[..expanded.bytes].to_vec(), expanded.entered))
    }

    #[test]
    fn calls_are_replaced_and_other_items_are_copied() {
        let first = [b"A\x1bKD3151\x1bKO010".to_vec(), call(2), b"B".to_vec()].concat();
        let macros = [(1, first), (2, b"\x1bLTB0\x00C".to_vec())];
        assert_eq!(expansion(&macros, 1), Err(Refusal::BodyRefused));
        let second = b"\x1bLT1C\x00".to_vec();
        let macros = [(1, macros[0].1.clone()), (2, second)];
        let written = b"A\x1bKD3151\x1bKO010\x1bLT1C\x00B".to_vec();
        assert_eq!(expansion(&macros, 1), Ok((written, 2)));
    }

    #[test]
    fn a_call_in_any_spelling_is_replaced() {
        let body = b"\x1bKX@@1\x1bKX\x1b?0\x1bKA\x1b?0".to_vec();
        let macros = [(0, body), (1, b"one".to_vec()), (1008, b"pair".to_vec())];
        let written = b"onepair\x1bKA\x1b?0".to_vec();
        assert_eq!(expansion(&macros, 0), Ok((written, 3)));
    }

    #[test]
    fn absent_macros_give_nothing() {
        let body = [b"A".to_vec(), call(9), b"B".to_vec()].concat();
        assert_eq!(expansion(&[(1, body)], 1), Ok((b"AB".to_vec(), 1)));
        assert_eq!(expansion(&[(1, call(9))], 1), Ok((vec![], 1)));
    }

    fn chain(length: i32, last: Vec<u8>) -> Vec<(i32, Vec<u8>)> {
        let mut macros: Vec<(i32, Vec<u8>)> = (1..length).map(|n| (n, call(n + 1))).collect();
        macros.push((length, last));
        macros
    }

    #[test]
    fn depth_8_is_the_deepest() {
        let eight = expansion(&chain(8, b"A".to_vec()), 1);
        assert_eq!(eight, Ok((b"A".to_vec(), 8)));
        let nine = expansion(&chain(9, b"A".to_vec()), 1);
        assert_eq!(nine, Err(Refusal::TooDeep));
        let absent = expansion(&chain(8, call(9)), 1);
        assert_eq!(absent, Err(Refusal::TooDeep));
        let negative = expansion(&chain(8, call(-1)), 1);
        assert_eq!(negative, Err(Refusal::NotValid));
        let itself = expansion(&[(1, call(1))], 1);
        assert_eq!(itself, Err(Refusal::TooDeep));
    }

    /// Enters 1,024 macros: 1 and 3 times 341.
    fn tree(ending: Vec<u8>) -> Vec<(i32, Vec<u8>)> {
        let mut macros = vec![(1, [call(2).repeat(3), ending].concat())];
        macros.extend((2..6).map(|n| (n, call(n + 1).repeat(4))));
        macros.push((6, b"A".to_vec()));
        macros
    }

    #[test]
    fn a_1025th_macro_is_not_entered() {
        let full = Ok((vec![b'A'; 768], 1024));
        assert_eq!(expansion(&tree(vec![]), 1), full);
        assert_eq!(expansion(&tree(call(9)), 1), full);
        let one_more = expansion(&tree(call(6)), 1);
        assert_eq!(one_more, Err(Refusal::TooManyMacros));
        let negative = expansion(&tree(call(-1)), 1);
        assert_eq!(negative, Err(Refusal::NotValid));
        let cut = expansion(&tree(vec![27]), 1);
        assert_eq!(cut, Err(Refusal::BodyRefused));
    }

    #[test]
    fn the_first_trouble_decides() {
        let cut_first = [b"\x1bKA@".to_vec(), call(-1)].concat();
        assert_eq!(expansion(&[(1, cut_first)], 1), Err(Refusal::BodyRefused));
        let negative_first = [call(-1), b"\x1b".to_vec()].concat();
        let answer = expansion(&[(1, negative_first)], 1);
        assert_eq!(answer, Err(Refusal::NotValid));
    }

    #[test]
    fn the_start_is_refused_first() {
        let store = store_of(&[(1, b"A".to_vec())]);
        let mut out = [255; 1];
        let malformed = [1];
        for (volatile, saved, number, refusal) in [
            (&malformed[..], &store[..], -1, Refusal::StoreMalformed),
            (&store, &malformed, 1, Refusal::StoreMalformed),
            (&store, &store, 32768, Refusal::NotValid),
            (&store, &store, 2, Refusal::NoSuchMacro),
        ] {
            let answer = expand(volatile, saved, number, Remembered::FRESH, &mut out);
            assert_eq!(answer, Err(refusal));
        }
        let outside = Remembered {
            point: Point { x: 0, y: 4096 },
            ..Remembered::FRESH
        };
        for (volatile, number, refusal) in [
            (&malformed[..], 1, Refusal::StoreMalformed),
            (&store, 2, Refusal::NotValid),
        ] {
            let answer = expand(volatile, &[], number, outside, &mut out);
            assert_eq!(answer, Err(refusal));
        }
        assert_eq!(out, [255]);
    }

    #[test]
    fn the_output_is_looked_at_last() {
        let store = store_of(&[(1, b"ABC".to_vec()), (2, b"ABC\x1b".to_vec())]);
        let mut out = [255; 4];
        let expanded = |number, out: &mut [u8]| expand(&store, &[], number, Remembered::FRESH, out);
        assert_eq!(expanded(1, &mut out[..2]), Err(Refusal::TooShort));
        assert_eq!(expanded(2, &mut out[..2]), Err(Refusal::BodyRefused));
        assert_eq!(out, [255; 4]);
        let whole = Expanded {
            bytes: 3,
            entered: 1,
            remembered: Remembered::FRESH,
        };
        assert_eq!(expanded(1, &mut out), Ok(whole));
        assert_eq!(out, *b"ABC\xff");
    }
}
