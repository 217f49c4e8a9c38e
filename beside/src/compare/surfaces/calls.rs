//! One call of a sequence.

use std::fmt;

use crate::compare::case::in_decimal;
use crate::compare::shrinking::{lesser, lower, lowered_array, with_each};

/// RP's end of row.
pub const END_OF_ROW: i32 = 96;

/// The names of a record's fields, in the order of the header.
const FIELDS: [&str; 7] = ["bits", "left", "bottom", "right", "top", "x", "y"];

#[derive(Clone)]
pub struct Call {
    pub w: usize,
    pub h: usize,
    /// How many bytes of the surface are lent.
    pub lent: usize,
    /// A field of the record, and what the caller sets it to before the call.
    pub spoiled: Option<(usize, usize)>,
    pub what: What,
}

#[derive(Clone)]
pub enum What {
    Fresh,
    Bits([i32; 3]),
    Viewport([i32; 4]),
    Beam([i32; 2]),
    Step,
    Raster { n: i32, characters: Vec<i32> },
    Runs { codes: Vec<i32> },
}

impl What {
    fn smaller(&self) -> Vec<What> {
        match self {
            What::Fresh | What::Step => vec![],
            What::Bits(integers) => lowered_array(*integers)
                .into_iter()
                .map(What::Bits)
                .collect(),
            What::Viewport(corners) => {
                let corners = lowered_array(*corners).into_iter();
                corners.map(What::Viewport).collect()
            }
            What::Beam(to) => lowered_array(*to).into_iter().map(What::Beam).collect(),
            What::Raster { n, characters } => smaller_rasters(*n, characters),
            What::Runs { codes } => {
                let lists = lesser(codes).into_iter();
                lists.map(|codes| What::Runs { codes }).collect()
            }
        }
    }
}

/// With fewer pixels go fewer characters: one thing alone would mostly be refused. The ends of row may stay.
fn smaller_rasters(n: i32, characters: &[i32]) -> Vec<What> {
    let raster = |n: i32, characters: &[i32]| What::Raster {
        n,
        characters: characters.to_vec(),
    };
    let is_named = |&character: &i32| character != END_OF_ROW;
    let first = characters.iter().position(is_named);
    let last = characters.iter().rposition(is_named);
    let mut rasters = Vec::new();
    for n in lower(n) {
        rasters.push(raster(n, characters));
        for place in first.into_iter().chain(last) {
            let others = [&characters[..place], &characters[place + 1..]];
            rasters.push(raster(n, &others.concat()));
        }
        for left in lower(characters.len()) {
            rasters.push(raster(n, &characters[..left]));
        }
    }
    let lists = lesser(characters).into_iter();
    rasters.extend(lists.map(|characters| raster(n, &characters)));
    rasters
}

impl Call {
    pub fn smaller(&self) -> Vec<Call> {
        let spoiled = self.spoiled.map_or(vec![], |(field, value)| {
            let lowered = lower(value).into_iter();
            let lowered = lowered.map(|value| Some((field, value)));
            [None].into_iter().chain(lowered).collect()
        });
        [
            with_each(self, self.what.smaller(), |call, what| call.what = what),
            with_each(self, spoiled, |call, spoiled| call.spoiled = spoiled),
        ]
        .concat()
    }
}

impl fmt::Display for Call {
    fn fmt(&self, text: &mut fmt::Formatter) -> fmt::Result {
        if let Some((field, value)) = self.spoiled {
            write!(text, "with the record's {} set to {value}: ", FIELDS[field])?;
        }
        let Call { w, h, lent, .. } = self;
        match &self.what {
            What::Fresh => write!(text, "ardh_fresh({w}, {h})"),
            What::Bits(integers) => {
                write!(
                    text,
                    "ardh_set_bits({w}, {h}), integers {}",
                    in_decimal(integers)
                )
            }
            What::Viewport(corners) => {
                write!(
                    text,
                    "ardh_set_viewport({w}, {h}), corners {}",
                    in_decimal(corners)
                )
            }
            What::Beam(to) => write!(text, "ardh_set_beam({w}, {h}), to {}", in_decimal(to)),
            What::Step => write!(text, "ardh_step({w}, {h})"),
            What::Raster { n, characters } => {
                write!(text, "ardh_draw_raster({w}, {h}) on {lent} bytes, n {n}, ")?;
                write!(text, "characters {}", in_decimal(characters))
            }
            What::Runs { codes } => {
                write!(text, "ardh_draw_runs({w}, {h}) on {lent} bytes, ")?;
                write!(text, "codes {}", in_decimal(codes))
            }
        }
    }
}
