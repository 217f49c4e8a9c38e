//! What is wrong with a call, each thing looked at by itself, whatever else is wrong.

use second::record::Size;

use super::calls::{Call, What, END_OF_ROW};
use super::side::record_of;

const SIDES: std::ops::RangeInclusive<usize> = 1..=512;
const LARGEST: Size = Size { w: 512, h: 512 };

pub fn reasons(call: &Call, record: [usize; 7]) -> Vec<u8> {
    let mut reasons = Vec::new();
    let is_draw = matches!(call.what, What::Raster { .. } | What::Runs { .. });
    if is_size_wrong(call, is_draw) {
        reasons.push(11);
    }
    if !matches!(call.what, What::Fresh) && (is_record_wrong(call, record) || is_value_wrong(call))
    {
        reasons.push(8);
    }
    if is_draw && record[0] == 0 {
        reasons.push(9);
    }
    if is_raster_wrong(call, record[0]) {
        reasons.push(10);
    }
    reasons
}

fn is_size_wrong(call: &Call, is_draw: bool) -> bool {
    let are_sides = SIDES.contains(&call.w) && SIDES.contains(&call.h);
    !are_sides || is_draw && call.lent != call.w * call.h
}

/// Where the size is wrong: not valid on any surface.
fn is_record_wrong(call: &Call, record: [usize; 7]) -> bool {
    let size = Size {
        w: call.w,
        h: call.h,
    };
    let size = if size.check().is_ok() { size } else { LARGEST };
    record_of(record).check(size).is_err()
}

/// A value that no record and no surface makes right.
fn is_value_wrong(call: &Call) -> bool {
    let is_number = |number: &i32| (0..=32767).contains(number);
    match &call.what {
        What::Bits(integers) => ![1, 2, 3, 6].contains(&integers[2]),
        What::Viewport(corners) => !corners.iter().all(|corner| (0..512).contains(corner)),
        What::Beam(to) => !to.iter().all(|place| (0..512).contains(place)),
        What::Raster { n, characters } => !is_number(n) || characters.len() > 256,
        What::Runs { codes } => !codes.iter().all(is_number) || codes.len() > 256,
        What::Fresh | What::Step => false,
    }
}

/// A character outside, or, where bits and N are there to tell, a wrong number of those that are no ends of row.
fn is_raster_wrong(call: &Call, bits: usize) -> bool {
    let What::Raster { n, characters } = &call.what else {
        return false;
    };
    let others = characters
        .iter()
        .filter(|&&character| character != END_OF_ROW);
    let is_number_wrong = match (bits, usize::try_from(*n)) {
        (1 | 2 | 3 | 6, Ok(n)) => n.div_ceil(6 / bits) != others.count(),
        _ => false,
    };
    is_number_wrong
        || !characters
            .iter()
            .all(|character| (32..=END_OF_ROW).contains(character))
}

#[cfg(test)]
mod tests {
    use super::*;

    fn raster(w: usize, lent: usize, n: i32, characters: &[i32]) -> Call {
        Call {
            w,
            h: 2,
            lent,
            spoiled: None,
            what: What::Raster {
                n,
                characters: characters.to_vec(),
            },
        }
    }

    #[test]
    fn each_thing_is_looked_at_by_itself() {
        let fresh = [0, 0, 0, 2, 1, 0, 1];
        let three_bits = [3, 0, 0, 2, 1, 0, 1];
        let wrong = [0, 2, 0, 1, 1, 0, 1];
        let good = raster(3, 6, 2, &[42]);
        assert_eq!(reasons(&good, three_bits), []);
        assert_eq!(reasons(&good, fresh), [9]);
        assert_eq!(reasons(&good, wrong), [8, 9]);
        assert_eq!(reasons(&raster(3, 5, 3, &[42]), three_bits), [11, 10]);
        assert_eq!(reasons(&raster(3, 6, 2, &[96, 42, 96]), three_bits), []);
        assert_eq!(reasons(&raster(3, 6, 3, &[42, 96]), three_bits), [10]);
        assert_eq!(reasons(&raster(3, 6, 0, &[96; 257]), three_bits), [8]);
        assert_eq!(reasons(&raster(3, 6, 2, &[42, 97]), three_bits), [10]);
        assert_eq!(reasons(&raster(0, 0, -1, &[31]), fresh), [11, 8, 9, 10]);
    }
}
