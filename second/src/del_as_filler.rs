//! Tests of the DEL mode: what a plain 127 is to reading, to writing and to expanding.

use crate::answers::Refusal;
use crate::commands::{spell_command, Command, Value};
use crate::draws::Draws;
use crate::expansion::{expand, Expanded};
use crate::items::{items_from, Item};
use crate::lister::{line_of, listing_of};
use crate::parameters::DEL;
use crate::points::Point;
use crate::remembered::{DelMode, Remembered};
use crate::reports::{read_string_report, write_string_report};
use crate::store::append_entry;
use DelMode::{Data, Filler};

const BOTH: [DelMode; 2] = [Data, Filler];

/// The lister's lines of the items, from a mode on.
fn listed(mode: DelMode, bytes: &[u8]) -> String {
    let lines: Vec<String> = items_from(bytes, Remembered::fresh_in(mode))
        .map(|read| line_of(&read.item))
        .collect();
    lines.join(", ")
}

/// What is remembered behind the last item.
fn left(before: Remembered, bytes: &[u8]) -> Remembered {
    let last = items_from(bytes, before).last();
    last.map_or(before, |read| read.remembered)
}

mod read {
    use super::*;

    #[test]
    fn a_del_between_esc_and_the_first_letter_is_passed_over() {
        let bytes = [27, 127, 75, 127, 65, 127, 48];
        assert_eq!(listed(Filler, &bytes), "C 0 KA 0");
        assert_eq!(listed(Data, &bytes), "R 0 2 1");
    }

    #[test]
    fn a_del_behind_a_whole_command_is_an_item() {
        for (bytes, line) in [
            (b"\x1bKA0\x7f".as_slice(), "C 0 KA 0, D 4"),
            (b"\x1bLFy@\x7f", "C 0 LF 0 100, D 5"),
            (b"\x1bLT1A\x7f", "C 0 LT 1 65, D 5"),
            (b"\x1bLT1\x1b?\x7f", "C 0 LT 1 127, D 6"),
            (b"\x1bLT0\x7f", "C 0 LT 0, D 4"),
            (b"\x1bRL11\x7f", "C 0 RL 1 1, D 5"),
            (b"\x1bIQAB\x7f", "C 0 IQ 65 66, D 5"),
        ] {
            assert_eq!(listed(Filler, bytes), line);
        }
    }

    #[test]
    fn each_del_between_commands_is_an_item_the_last_byte_too() {
        assert_eq!(
            listed(Filler, b"A\x7f\x7f\x1bKA0B\x7f\x7f"),
            "T 0 65, D 1, D 2, C 3 KA 0, T 7 66, D 8, D 9"
        );
    }

    #[test]
    fn fillers_are_passed_over_before_and_in_each_kind_of_parameter() {
        for (bytes, line) in [
            (b"\x1bKA\x7fA\x7f\x7fK\x7f0".as_slice(), "C 0 KA 1200"),
            (b"\x1bNR\x7f0\x7f1", "C 0 NR 0 1"),
            (b"\x1bLF\x7f7\x7fo\x7f\x1b?\x7f?\x7f_", "C 0 LF 4095 3071"),
            (b"\x1bRS\x7fy\x7f@\x7f@", "C 0 RS 0 100 0 100"),
            (b"\x1bMR\x7f5\x7f#", "C 0 MR 5 -3"),
            (b"\x1bRL\x7f2\x7fA\x7f5\x7f1", "C 0 RL 2 21 1"),
            (b"\x1bKD\x7f5\x7f1\x7fD\x7f8", "C 0 KD 5 1 72"),
            (b"\x1bRP\x7f4\x7f2\x7f*\x7f<", "C 0 RP 4 2 42 60"),
            (b"\x1bIQ\x7fA\x7fB", "C 0 IQ 65 66"),
        ] {
            assert_eq!(listed(Filler, bytes), line);
        }
    }

    #[test]
    fn a_count_is_of_characters_and_not_of_dels_passed() {
        let bytes = [27, 76, 84, 50, 65, 127, 66];
        assert_eq!(listed(Filler, &bytes), "C 0 LT 2 65 66");
        assert_eq!(listed(Data, &bytes), "C 0 LT 2 65 127, T 6 66");
    }

    #[test]
    fn a_pair_split_by_dels_is_127_and_its_place_is_that_of_the_63() {
        let bytes = [27, 73, 81, 65, 27, 127, 127, 63];
        assert_eq!(listed(Filler, &bytes), "C 0 IQ 65 127");
        // As the third high byte.
        let third = [27, 75, 65, 64, 64, 127, 27, 127, 63, 48];
        assert_eq!(listed(Filler, &third), "R 0 4 8");
    }

    #[test]
    fn esc_dels_and_another_byte_are_6_at_the_esc() {
        let bytes = [27, 75, 65, 27, 127, 127, 75, 72, 48];
        assert_eq!(listed(Filler, &bytes), "R 0 6 3, C 3 KH 0");
        // The new command's own letter is then a 27.
        let twice = [27, 75, 65, 27, 127, 27, 75, 72, 48];
        assert_eq!(listed(Filler, &twice), "R 0 6 3, R 3 6 5, C 5 KH 0");
    }

    #[test]
    fn bytes_that_end_behind_dels_are_1_at_the_length() {
        for bytes in [
            b"\x1b\x7f\x7f\x7f".as_slice(),
            b"\x1bK\x7f\x7f",
            b"\x1bKA\x7f",
            b"\x1b\x7fKA\x40\x7f",
            b"\x1bLT2A\x7f",
        ] {
            let line = format!("R 0 1 {}", bytes.len());
            assert_eq!(listed(Filler, bytes), line);
        }
    }

    #[test]
    fn esc_and_del_at_the_end_in_a_parameter_are_1_or_6() {
        let bytes = [27, 75, 65, 27, 127];
        assert_eq!(listed(Filler, &bytes), "R 0 1 5");
        assert_eq!(listed(Data, &bytes), "R 0 6 3, R 3 2 4");
    }

    #[test]
    fn a_refused_item_keeps_the_dels_before_its_place_and_those_it_passes_over() {
        let passing = [27, 75, 90, 127, 65, 127, 27, 75, 65, 48];
        for mode in BOTH {
            assert_eq!(listed(mode, &passing), "R 0 2 2, C 6 KA 0");
        }
        assert_eq!(listed(Filler, b"\x1b\x7fK\x7fZ\x7fA"), "R 0 2 4");
        assert_eq!(listed(Filler, b"\x1bKA\x7f\x0a\x7f"), "R 0 3 4");
    }

    #[test]
    fn there_is_no_pair_between_letters() {
        for mode in BOTH {
            assert_eq!(listed(mode, &[27, 63]), "R 0 2 1");
            assert_eq!(listed(mode, &[27, 75, 27, 63]), "R 0 6 2, R 2 2 3");
        }
        assert_eq!(listed(Filler, &[27, 127, 63]), "R 0 2 2");
        let escape = [27, 75, 127, 27, 127, 63];
        assert_eq!(listed(Filler, &escape), "R 0 6 3, R 3 2 5");
    }

    #[test]
    fn mode_0_reads_as_before() {
        assert_eq!(listed(Data, &[127]), "T 0 127");
        assert_eq!(listed(Data, &[27, 127, 75]), "R 0 2 1");
        assert_eq!(listed(Data, &[27, 75, 127]), "R 0 2 2");
        assert_eq!(listed(Data, b"\x1bKA\x7f0"), "C 0 KA 1008");
        assert_eq!(listed(Data, b"\x1bIQ\x7f\x7f"), "C 0 IQ 127 127");
        assert_eq!(listed(Data, b"\x1bKA\x1b\x7f?"), "R 0 6 3, R 3 2 4");
    }

    #[test]
    fn byte_255_is_no_127() {
        for mode in BOTH {
            assert_eq!(listed(mode, &[255]), "T 0 255");
            assert_eq!(listed(mode, &[27, 75, 65, 255]), "R 0 3 3");
        }
    }

    #[test]
    fn the_lister_starts_in_mode_0_and_goes_by_ki() {
        assert_eq!(
            listing_of(b"\x7f\x1bKI1\x7f\x1bKI0\x7f"),
            "T 0 127\nC 1 KI 1\nD 5\nC 6 KI 0\nT 10 127\nE 11\n"
        );
    }

    /// Some letters, ends of ranges and the pair's two; no I, so that there is no KI.
    const NOISE: [u8; 20] = [
        27, 27, 27, 63, 63, 127, 127, 127, 127, 75, 65, 76, 84, 70, 82, 83, 48, 50, 64, 10,
    ];

    /// What a refused item says of its place is told by the bytes that are no fillers before it.
    fn without_fillers(item: Item, before: impl Fn(usize) -> usize) -> Option<Item> {
        match item {
            Item::Del { .. } => None,
            Item::Text { place, byte } => Some(Item::Text {
                place: before(place),
                byte,
            }),
            Item::Command { start, command } => Some(Item::Command {
                start: before(start),
                command,
            }),
            Item::RefusedCommand { start, refused } => Some(Item::RefusedCommand {
                start: before(start),
                refused: refused.refusal.at(before(refused.place)),
            }),
        }
    }

    #[test]
    fn without_ki_the_items_are_those_of_the_bytes_without_their_fillers() {
        let mut draws = Draws::starting_with(13);
        for _ in 0..20_000 {
            let length = draws.draw_below(40);
            let bytes: Vec<u8> = (0..length)
                .map(|_| NOISE[draws.draw_below(NOISE.len())])
                .collect();
            let is_kept = |byte: &&u8| **byte != DEL;
            let kept: Vec<u8> = bytes.iter().filter(is_kept).copied().collect();
            let before = |place: usize| bytes[..place].iter().filter(is_kept).count();
            let padded = items_from(&bytes, Remembered::fresh_in(Filler));
            let padded: Vec<Item> = padded
                .filter_map(|read| without_fillers(read.item, before))
                .collect();
            let plain: Vec<Item> = items_from(&kept, Remembered::fresh_in(Data))
                .map(|r| r.item)
                .collect();
            assert_eq!(padded, plain, "{bytes:?}");
        }
    }
}

mod remember {
    use super::*;

    #[test]
    fn ki_is_read_in_the_mode_before_it() {
        let bytes = [27, 75, 73, 127, 49];
        assert_eq!(listed(Data, &bytes), "C 0 KI 1009");
        assert_eq!(listed(Filler, &bytes), "C 0 KI 1");
        assert_eq!(left(Remembered::fresh_in(Data), &bytes).mode, Data);
    }

    #[test]
    fn ki_1_sets_the_mode_and_ki_0_clears_it() {
        let bytes = b"\x7f\x1bKI1\x7f\x1bKI0\x7f";
        for mode in BOTH {
            let first = match mode {
                Data => "T 0 127",
                Filler => "D 0",
            };
            let lines = format!("{first}, C 1 KI 1, D 5, C 6 KI 0, T 10 127");
            assert_eq!(listed(mode, bytes), lines);
        }
    }

    #[test]
    fn other_numbers_of_ki_are_accepted_and_leave_the_mode() {
        for mode in BOTH {
            for bytes in [b"\x1bKI!".as_slice(), b"\x1bKI2", b"\x1bKI\x1b?1"] {
                assert!(listed(mode, bytes).starts_with("C 0 KI "));
                assert_eq!(left(Remembered::fresh_in(mode), bytes).mode, mode);
            }
        }
    }

    #[test]
    fn a_refused_command_leaves_mode_and_point() {
        // A third high byte, a byte that is not allowed, a new ESC, the end; the first corner of RS.
        for bytes in [
            b"\x1bKI@@@1".as_slice(),
            b"\x1bKI\x0a1",
            b"\x1bKI\x1b1",
            b"\x1bKI@",
            b"\x1bRSy@\x01",
        ] {
            for mode in BOTH {
                let before = Remembered {
                    point: Point { x: 5, y: 6 },
                    mode,
                };
                assert_eq!(left(before, bytes), before);
            }
        }
    }

    #[test]
    fn a_del_that_is_an_item_changes_nothing() {
        let before = Remembered {
            point: Point { x: 5, y: 6 },
            mode: Filler,
        };
        assert_eq!(left(before, &[127, 127]), before);
    }
}

mod write {
    use super::*;

    /// Letters and values, and how the values are sent in mode 0 and in mode 1.
    type Case<'a> = (&'a [u8; 2], Vec<Value>, &'a [u8], &'a [u8]);

    fn spelled(mode: DelMode, letters: &[u8; 2], values: Vec<Value>) -> Vec<u8> {
        let letters = *letters;
        let command = Command { letters, values };
        let spelling = spell_command(&command, Remembered::fresh_in(mode)).unwrap();
        spelling[3..].to_vec()
    }

    #[test]
    fn each_127_of_a_parameter_is_sent_as_the_pair_in_mode_1() {
        let integer = |integer| vec![Value::Integer(integer)];
        let string = || Value::String(vec![65, 127, 127]);
        let raster = vec![Value::Integer(1023), string()];
        let runs = vec![Value::Array(vec![1023, 1])];
        let point = vec![Value::Point(Point { x: 0, y: 124 })];
        let characters = vec![Value::Character(127), Value::Character(63)];
        let cases: [Case; 7] = [
            (b"KA", integer(32767), b"_\x7f?", b"_\x1b??"),
            (b"KA", integer(-1008), b"\x7f ", b"\x1b? "),
            (b"LF", point, b"\x7f@", b"\x1b?@"),
            (b"LT", vec![string()], b"3A\x7f\x7f", b"3A\x1b?\x1b?"),
            (b"RL", runs, b"2\x7f?1", b"2\x1b??1"),
            (b"RP", raster, b"\x7f?3A\x7f\x7f", b"\x1b??3A\x1b?\x1b?"),
            (b"IQ", characters, b"\x7f?", b"\x1b??"),
        ];
        for (letters, values, data, filler) in cases {
            assert_eq!(spelled(Data, letters, values.clone()), data);
            assert_eq!(spelled(Filler, letters, values), filler);
        }
    }

    #[test]
    fn ki_is_spelled_in_the_mode_before_it() {
        let ki = |number| vec![Value::Integer(number)];
        assert_eq!(spelled(Data, b"KI", ki(1009)), [127, 49]);
        assert_eq!(spelled(Filler, b"KI", ki(1009)), [27, 63, 49]);
        assert_eq!(spelled(Data, b"KI", ki(1)), [49]);
        assert_eq!(spelled(Filler, b"KI", ki(0)), [48]);
    }

    #[test]
    fn the_longest_commands_have_776_and_1033_bytes() {
        let array = || Value::Array(vec![32767; 256]);
        let longest = || vec![Value::Integer(32767), array()];
        assert_eq!(spelled(Data, b"KD", longest()).len(), 773);
        assert_eq!(spelled(Filler, b"KD", longest()).len(), 1030);
        let corner = |x, y| Value::Point(Point { x, y });
        let there_and_back = vec![corner(4095, 4095), corner(0, 124)];
        assert_eq!(spelled(Filler, b"RS", there_and_back).len(), 12);
    }

    #[test]
    fn reports_know_no_mode() {
        let mut bytes = [0; 5];
        assert_eq!(write_string_report(&[127, 127], &mut bytes, 0), Ok(5));
        assert_eq!(bytes, [32, 32, 50, 127, 127]);
        let mut list = [0; 2];
        assert!(read_string_report(&bytes, 0, &mut list).is_ok());
        assert_eq!(list, [127, 127]);
    }
}

mod expanded {
    use super::*;

    const AT: Point = Point { x: 5, y: 6 };

    /// Macros by rising number, the first of which is expanded.
    fn expansion(mode: DelMode, bodies: &[&[u8]]) -> Result<(Vec<u8>, Remembered), Refusal> {
        let mut store = Vec::new();
        for (number, body) in (1..).zip(bodies) {
            append_entry(&mut store, number, body);
        }
        let mut out = [0; 300];
        let remembered = Remembered { point: AT, mode };
        let Expanded {
            bytes, remembered, ..
        } = expand(&store, &[], 1, remembered, &mut out)?;
        Ok((out[..bytes].to_vec(), remembered))
    }

    fn at(point: Point, mode: DelMode) -> Remembered {
        Remembered { point, mode }
    }

    #[test]
    fn every_del_is_copied_but_those_of_a_call() {
        let body = b"A\x7f\x1bK\x7fA\x7f0\x7f\x1b\x7fK\x7fX\x7f2\x7fB";
        let written = b"A\x7f\x1bK\x7fA\x7f0\x7f\x7f\x7f\x7fB".to_vec();
        let answer = expansion(Filler, &[body, b"\x7f\x7f"]);
        assert_eq!(answer, Ok((written, at(AT, Filler))));
    }

    #[test]
    fn an_expansion_read_again_in_the_callers_mode_gives_the_same_items() {
        let bodies = [
            b"\x7fA\x1bKX\x7f2\x1bLFy\x7f@\x7f".as_slice(),
            b"\x1bKI\x7f0\x7f\x1bKI1",
        ];
        let (written, remembered) = expansion(Filler, &bodies).unwrap();
        let items = "D 0, T 1 65, C 2 KI 0, T 7 127, C 8 KI 1, C 12 LF 0 100, D 18";
        assert_eq!(listed(Filler, &written), items);
        assert_eq!(left(at(AT, Filler), &written), remembered);
    }

    #[test]
    fn a_body_is_read_in_the_callers_mode() {
        // Two characters that are 127 are fillers in mode 1, and the command is cut.
        let body = b"\x1bLT2\x7f\x7f";
        assert!(expansion(Data, &[body]).is_ok());
        assert_eq!(expansion(Filler, &[body]), Err(Refusal::BodyRefused));
        assert!(expansion(Filler, &[b"\x1bLT2\x7f\x1b?\x7fA"]).is_ok());
    }

    #[test]
    fn ki_in_a_body_holds_into_the_macros_that_it_calls() {
        let bodies = [b"\x1bKI1\x1bKX2".as_slice(), b"\x1bK\x7fA0"];
        let written = b"\x1bKI1\x1bK\x7fA0".to_vec();
        assert_eq!(expansion(Data, &bodies), Ok((written, at(AT, Filler))));
        let before = [b"\x1bKX2\x1bKI1".as_slice(), b"\x1bK\x7fA0"];
        assert_eq!(expansion(Data, &before), Err(Refusal::BodyRefused));
    }

    #[test]
    fn ki_in_a_macro_called_holds_behind_the_call() {
        let bodies = [b"\x1bKX2\x1bK\x7fA0".as_slice(), b"\x1bKI1"];
        let written = b"\x1bKI1\x1bK\x7fA0".to_vec();
        assert_eq!(expansion(Data, &bodies), Ok((written, at(AT, Filler))));
        // An absent macro sets nothing.
        assert_eq!(expansion(Data, &bodies[..1]), Err(Refusal::BodyRefused));
    }

    #[test]
    fn what_is_remembered_at_the_end_is_handed_back() {
        let (_, remembered) = expansion(Filler, &[b"\x1bLFy@\x1bKI0"]).unwrap();
        // From (5,6): LoY 25 and LoX 0 are new, and the low bits stay.
        assert_eq!(remembered, at(Point { x: 1, y: 102 }, Data));
        let nested = [b"\x1bKX2\x1bKI2".as_slice(), b"\x1bLFy@\x1bKI1"];
        let (_, remembered) = expansion(Data, &nested).unwrap();
        assert_eq!(remembered, at(Point { x: 1, y: 102 }, Filler));
    }
}
