//! Expanding a macro.

use super::integers::MOST_ENTRIES;
use super::items::{next_item, Item};
use super::refusals::Refusal;
use super::remembered::Remembered;
use super::store::{check_both, find_in_either, macro_number, Store};

const DEEPEST: usize = 8;
const MOST_ENTERED: usize = 1024;

struct Expander<'a> {
    volatile: &'a [u8],
    saved: &'a [u8],
    /// Where bytes go; nowhere while the length is being found.
    out: Option<&'a mut [u8]>,
    written: usize,
    entered: usize,
    remembered: Remembered,
    /// What the arrays and strings of bodies are read into.
    list: [i32; MOST_ENTRIES],
}

#[derive(Clone, Copy, Debug, PartialEq, Eq)]
pub struct Expanded {
    pub written: usize,
    pub entered: usize,
}

/// The expansion of a macro into `out`. What is remembered is then that behind it. A first run finds any refusal and the length, so that a
/// refusal leaves what is lent as it was.
pub fn expand(
    volatile: &[u8],
    saved: &[u8],
    number: i32,
    remembered: &mut Remembered,
    out: &mut [u8],
) -> Result<Expanded, Refusal> {
    check_both(volatile, saved)?;
    let start = macro_number(number)?;
    if !remembered.point.is_inside() {
        return Err(Refusal::NotValid);
    }
    find_in_either(volatile, saved, start).ok_or(Refusal::NoSuchMacro)?;
    let (found, _) = run(volatile, saved, number, *remembered, None)?;
    if found.written > out.len() {
        return Err(Refusal::TooShort);
    }
    let (expanded, behind) = run(volatile, saved, number, *remembered, Some(out))?;
    *remembered = behind;
    Ok(expanded)
}

fn run(
    volatile: &[u8],
    saved: &[u8],
    number: i32,
    remembered: Remembered,
    out: Option<&mut [u8]>,
) -> Result<(Expanded, Remembered), Refusal> {
    let mut expander = Expander {
        volatile,
        saved,
        out,
        written: 0,
        entered: 0,
        remembered,
        list: [0; MOST_ENTRIES],
    };
    expander.enter(number, 0)?;
    let expanded = Expanded {
        written: expander.written,
        entered: expander.entered,
    };
    Ok((expanded, expander.remembered))
}

impl Expander<'_> {
    /// A macro that is called in a body at `depth`; the start is called at depth 0.
    fn enter(&mut self, number: i32, depth: usize) -> Result<(), Refusal> {
        if number < 0 {
            return Err(Refusal::NotValid);
        }
        if depth == DEEPEST {
            return Err(Refusal::TooDeep);
        }
        let found = find_in_either(self.volatile, self.saved, number as usize);
        let body = match found {
            None => return Ok(()),
            Some((Store::Volatile, part)) => &self.volatile[part],
            Some((Store::Saved, part)) => &self.saved[part],
        };
        if self.entered == MOST_ENTERED {
            return Err(Refusal::TooManyMacros);
        }
        self.entered += 1;
        self.walk(body, depth + 1)
    }

    fn walk(&mut self, body: &[u8], depth: usize) -> Result<(), Refusal> {
        let mut at = 0;
        loop {
            let item = next_item(body, at, &mut self.remembered, &mut self.list);
            at = match item {
                Item::Nothing => return Ok(()),
                Item::RefusedCommand { .. } | Item::Refused(_) => return Err(Refusal::BodyRefused),
                Item::Command { command, next } if command.letters == *b"KX" => {
                    self.enter(command.values[0], depth)?;
                    next
                }
                Item::Text { next, .. } | Item::Del { next } | Item::Command { next, .. } => {
                    self.copy(&body[at..next]);
                    next
                }
            };
        }
    }

    fn copy(&mut self, part: &[u8]) {
        let end = self.written + part.len();
        if let Some(out) = &mut self.out {
            out[self.written..end].copy_from_slice(part);
        }
        self.written = end;
    }
}

#[cfg(test)]
mod tests {
    use super::*;
    use crate::plain::store::define;

    fn expand_fresh(store: &[u8], number: i32, out: &mut [u8]) -> Result<Expanded, Refusal> {
        let mut remembered = Remembered::FRESH;
        expand(store, &[], number, &mut remembered, out)
    }

    /// Macro `number` calls `number + 1`, which `last` does not.
    fn chain(last: i32) -> [u8; 128] {
        let mut store = [0; 128];
        for number in 1..=last {
            let call = [65, 27, 75, 88, 48 + number + 1, 66];
            let body = if number < last { &call[..] } else { &[67] };
            define(&mut store, number, body).unwrap();
        }
        store
    }

    #[test]
    fn eight_deep_is_done_and_nine_are_refused() {
        let mut out = [0; 32];
        let done = expand_fresh(&chain(8), 1, &mut out);
        let (written, entered) = (15, 8);
        assert_eq!(done, Ok(Expanded { written, entered }));
        assert_eq!(&out[..15], b"AAAAAAACBBBBBBB");
        let deeper = expand_fresh(&chain(9), 1, &mut out);
        assert_eq!(deeper, Err(Refusal::TooDeep));
    }

    #[test]
    fn what_is_absent_gives_nothing_and_7_comes_last() {
        let mut store = [0; 32];
        define(&mut store, 1, &[65, 27, 75, 88, 57, 66]).unwrap();
        let mut out = [9; 2];
        let (written, entered) = (2, 1);
        let done = expand_fresh(&store, 1, &mut out);
        assert_eq!(done, Ok(Expanded { written, entered }));
        assert_eq!(out, *b"AB");
        let short = expand_fresh(&store, 1, &mut out[..1]);
        assert_eq!(short, Err(Refusal::TooShort));
        define(&mut store, 1, &[65, 66, 27, 75]).unwrap();
        let cut = expand_fresh(&store, 1, &mut out[..1]);
        assert_eq!(cut, Err(Refusal::BodyRefused));
        let absent = expand_fresh(&store, 2, &mut out);
        assert_eq!(absent, Err(Refusal::NoSuchMacro));
    }

    #[test]
    fn ki_in_a_macro_called_holds_behind_the_call_and_is_handed_back() {
        let mut store = [0; 32];
        define(&mut store, 1, &[27, 75, 88, 50, 27, 75, 127, 65, 48]).unwrap();
        let mut out = [0; 16];
        let refused = expand_fresh(&store, 1, &mut out);
        assert_eq!(refused, Err(Refusal::BodyRefused));
        define(&mut store, 2, &[27, 75, 73, 49]).unwrap();
        let mut remembered = Remembered::FRESH;
        let done = expand(&store, &[], 1, &mut remembered, &mut out);
        let (written, entered) = (9, 2);
        assert_eq!(done, Ok(Expanded { written, entered }));
        assert_eq!(&out[..9], b"\x1bKI1\x1bK\x7fA0");
        assert_eq!(remembered.numbers(), [0, 0, 1]);
    }
}
