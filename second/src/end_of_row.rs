//! Tests of RP's character 96, on surfaces that hold other bytes than 0: "places passed over keep their bytes".

use crate::answers::Refusal;
use crate::pixels::Surface;
use crate::points::Point;
use crate::record::{Record, Size};

const SIZE: Size = Size { w: 4, h: 3 };

/// The bytes of the surface before a write, no two alike and none a colour.
const OLD: [u8; 12] = [
    100, 101, 102, 103, //
    110, 111, 112, 113, //
    120, 121, 122, 123,
];

struct Drawing {
    bytes: Vec<u8>,
    record: Record,
}

impl Drawing {
    /// On the whole surface, from the upper left.
    fn start(bits: i32) -> Drawing {
        let mut record = Record::fresh(SIZE).unwrap();
        record.set_bits(SIZE, [1, 11, bits]).unwrap();
        let bytes = OLD.to_vec();
        Drawing { bytes, record }
    }

    fn with_viewport(mut self, from: (u32, u32), to: (u32, u32)) -> Drawing {
        let corners = [point(from), point(to)];
        self.record.set_viewport(SIZE, corners).unwrap();
        self
    }

    fn from(mut self, place: (u32, u32)) -> Drawing {
        self.record.set_beam(SIZE, point(place)).unwrap();
        self
    }

    fn write(&mut self, n: i32, characters: &[i32]) -> Result<usize, Refusal> {
        let mut surface = Surface {
            bytes: &mut self.bytes,
            size: SIZE,
        };
        surface.write_raster(&mut self.record, n, characters)
    }

    /// A write that is done: the surface with these colours at these indices is left, and the beam at this place.
    fn leaves(mut self, n: i32, characters: &[i32], colours: &[(usize, u8)], beam: (usize, usize)) {
        assert_eq!(self.write(n, characters), Ok(n as usize));
        let mut expected = OLD.to_vec();
        for &(index, colour) in colours {
            expected[index] = colour;
        }
        assert_eq!(self.bytes, expected);
        assert_eq!((self.record.x, self.record.y), beam);
    }
}

fn point((x, y): (u32, u32)) -> Point {
    Point { x, y }
}

#[test]
fn first_and_last() {
    // From a left edge a whole row is passed over.
    Drawing::start(6).leaves(1, &[96, 37], &[(4, 5)], (1, 1));
    Drawing::start(6).leaves(1, &[37, 96], &[(0, 5)], (0, 1));
    let both = [96, 37, 38, 96];
    Drawing::start(6).leaves(2, &both, &[(4, 5), (5, 6)], (0, 0));
}

#[test]
fn twice_running() {
    let middle = [37, 96, 96, 38];
    Drawing::start(6).leaves(2, &middle, &[(0, 5), (8, 6)], (1, 0));
    Drawing::start(6).leaves(0, &[96, 96], &[], (0, 0));
}

#[test]
fn a_full_row_ends_by_itself_and_a_96_then_passes_the_next() {
    let full = [33, 34, 35, 36, 37];
    let colours = [(0, 1), (1, 2), (2, 3), (3, 4), (4, 5)];
    Drawing::start(6).leaves(5, &full, &colours, (1, 1));
    let ended = [33, 34, 35, 36, 96, 37];
    let colours = [(0, 1), (1, 2), (2, 3), (3, 4), (8, 5)];
    Drawing::start(6).leaves(5, &ended, &colours, (1, 0));
}

#[test]
fn round_to_the_top_after_the_last_row() {
    for from in 0..4 {
        let drawing = Drawing::start(6).from((from, 0));
        drawing.leaves(1, &[96, 37], &[(0, 5)], (1, 2));
    }
    // All the way round, with a colour laid over on the second round.
    let round = [37, 96, 96, 96, 38, 96];
    Drawing::start(6).leaves(2, &round, &[(0, 6)], (0, 1));
}

#[test]
fn the_left_edge_is_that_of_the_viewport() {
    let drawing = Drawing::start(6).with_viewport((1, 0), (2, 1));
    drawing.from((2, 1)).leaves(1, &[96, 37], &[(9, 5)], (2, 0));
    let drawing = Drawing::start(6).with_viewport((1, 0), (2, 1));
    drawing.from((2, 0)).leaves(1, &[96, 37], &[(5, 5)], (2, 1));
}

#[test]
fn in_a_viewport_one_wide() {
    // Every place is a left edge: a 96 passes one place.
    let drawing = Drawing::start(6).with_viewport((2, 0), (2, 2));
    drawing.leaves(2, &[37, 96, 38, 96], &[(2, 5), (10, 6)], (2, 1));
}

#[test]
fn in_a_viewport_one_high() {
    // The row below is the row itself.
    let drawing = Drawing::start(6).with_viewport((1, 1), (3, 1));
    let characters = [37, 38, 96, 39, 96];
    drawing.leaves(3, &characters, &[(5, 7), (6, 6)], (1, 1));
}

#[test]
fn in_a_viewport_of_one_place() {
    let drawing = Drawing::start(6).with_viewport((3, 1), (3, 1));
    drawing.leaves(2, &[96, 37, 96, 96, 38, 96], &[(7, 6)], (3, 1));
}

#[test]
fn alone_with_no_pixels() {
    Drawing::start(6).leaves(0, &[96], &[], (0, 1));
    Drawing::start(1).from((3, 0)).leaves(0, &[96], &[], (0, 2));
    // 256 of them: 85 times round three rows, and one.
    Drawing::start(6).leaves(0, &[96; 256], &[], (0, 1));
}

#[test]
fn behind_a_partly_used_character_from_where_the_beam_stands() {
    // Of 45, which is 1 and 5, the 1 alone is named.
    Drawing::start(3).leaves(1, &[45, 96], &[(0, 1)], (0, 1));
    // The beam stands in the last column. Had the 5 been laid there, the 96 would have passed the next row.
    let drawing = Drawing::start(3).from((2, 2));
    drawing.leaves(1, &[45, 96], &[(2, 1)], (0, 1));
}

#[test]
fn surplus_pixels_of_a_whole_character_go_into_the_next_row() {
    // Two pixels a character from column 3 on: the 5 is laid in the next row, and the 96 goes on from there.
    let drawing = Drawing::start(3).from((3, 2));
    let colours = [(3, 1), (4, 5), (8, 6), (9, 7)];
    drawing.leaves(4, &[45, 96, 32 + 6 * 8 + 7], &colours, (2, 0));
    // Six pixels a character on rows of four.
    let ones = [(0, 1), (1, 1), (2, 1), (3, 1), (4, 1), (5, 1), (8, 0)];
    Drawing::start(1).leaves(7, &[95, 96, 32], &ones, (1, 0));
}

#[test]
fn passed_places_are_not_counted() {
    let mut drawing = Drawing::start(6);
    assert_eq!(drawing.write(2, &[37, 96, 38]), Ok(2));
    assert_eq!(
        drawing.write(5, &[37, 96, 38]),
        Err(Refusal::RasterCharacters)
    );
}

#[test]
fn a_96_is_none_of_the_characters_that_n_needs() {
    for (n, characters) in [
        (1, &[96][..]),
        (2, &[37, 96]),
        (0, &[37, 96]),
        (1, &[96, 37, 38]),
        (257, &[37; 256]),
    ] {
        let mut drawing = Drawing::start(6);
        assert_eq!(drawing.write(n, characters), Err(Refusal::RasterCharacters));
        assert_eq!(drawing.bytes, OLD);
        assert_eq!(drawing.record, Drawing::start(6).record);
    }
}

#[test]
fn characters_beside_it_are_still_refused() {
    for (n, characters) in [(0, [96, 97]), (1, [96, 97]), (1, [96, 31]), (1, [96, -1])] {
        let mut drawing = Drawing::start(6);
        assert_eq!(
            drawing.write(n, &characters),
            Err(Refusal::RasterCharacters)
        );
        assert_eq!(drawing.bytes, OLD);
    }
}

#[test]
fn ends_of_row_count_towards_the_256() {
    let mut list = vec![37; 200];
    list.resize(256, 96);
    let mut drawing = Drawing::start(6);
    assert_eq!(drawing.write(200, &list), Ok(200));
    // 200 pixels end at the left edge of the last row, and 56 rows on from there is the middle one.
    assert_eq!((drawing.record.x, drawing.record.y), (0, 1));
    list.push(96);
    let before = drawing.record;
    assert_eq!(drawing.write(200, &list), Err(Refusal::NotValid));
    // 8 is before 10.
    assert_eq!(drawing.write(0, &list), Err(Refusal::NotValid));
    assert_eq!(drawing.write(1, &[97; 257]), Err(Refusal::NotValid));
    assert_eq!(drawing.record, before);
}

#[test]
fn the_next_write_goes_on_at_the_left_edge() {
    let mut drawing = Drawing::start(6);
    assert_eq!(drawing.write(1, &[37, 96]), Ok(1));
    assert_eq!(drawing.write(2, &[38, 39]), Ok(2));
    assert_eq!(drawing.bytes[..6], [5, 101, 102, 103, 6, 7]);
}

/// Document 003's fill pattern, 8 by 9 with six bits: N is 18, 15, 15; the strings have 21, 16, 18 characters.
#[test]
fn the_worked_example_of_the_manual() {
    let size = Size { w: 8, h: 9 };
    let mut record = Record::fresh(size).unwrap();
    record.set_bits(size, [1, 11, 6]).unwrap();
    let mut bytes = [b'.'; 72];
    for (n, string, count) in [
        (18, "00001`000111`0011111`", 21),
        (15, "011111111111111`", 16),
        (15, "011111`00111`0001`", 18),
    ] {
        let characters: Vec<i32> = string.bytes().map(i32::from).collect();
        assert_eq!(characters.len(), count);
        let mut surface = Surface {
            bytes: &mut bytes,
            size,
        };
        let answer = surface.write_raster(&mut record, n, &characters);
        assert_eq!(answer, Ok(n as usize));
    }
    // The colours are the characters less 32.
    let shown = bytes.map(|byte| if byte == b'.' { byte } else { byte + 32 });
    let rows: Vec<&[u8]> = shown.chunks(8).collect();
    let expected: [&[u8; 8]; 9] = [
        b"00001...",
        b"000111..",
        b"0011111.",
        b"01111111",
        b"1111111.",
        b"011111..",
        b"00111...",
        b"0001....",
        b"........",
    ];
    assert_eq!(rows, expected);
    assert_eq!((record.x, record.y), (0, 0));
}

/// The lines of docs/BALANCE.md that have ends of row: writes, each by bits, N and characters, and what they leave.
#[test]
fn the_worked_lines_of_the_balance() {
    type Write = (i32, i32, &'static [i32]);
    let lines: [(&[Write], [u8; 4], (usize, usize)); 3] = [
        (&[(6, 2, &[96, 37, 34])], [5, 6, 5, 2], (1, 1)),
        (
            &[(6, 1, &[37, 96, 96]), (6, 0, &[96]), (6, 1, &[35])],
            [3, 5, 7, 5],
            (2, 1),
        ),
        (
            &[(3, 2, &[45, 96]), (3, 1, &[96, 40])],
            [5, 1, 1, 5],
            (2, 0),
        ),
    ];
    for (writes, inside, beam) in lines {
        let start = Drawing::start(6).with_viewport((1, 0), (2, 1));
        let mut drawing = start.from((2, 1));
        drawing.bytes = vec![9, 9, 9, 9, 9, 5, 6, 9, 9, 7, 5, 5];
        for &(bits, n, characters) in writes {
            drawing.record.set_bits(SIZE, [0, 0, bits]).unwrap();
            assert_eq!(drawing.write(n, characters), Ok(n as usize));
        }
        let [a, b, c, d] = inside;
        assert_eq!(drawing.bytes, [9, 9, 9, 9, 9, a, b, 9, 9, c, d, 5]);
        assert_eq!((drawing.record.x, drawing.record.y), beam);
    }
}
