//! Readings and refusals worked out by hand, and the endings held against all endings of short texts.

use crate::vectors::text_watched::{MISFITS, STOPPING};
use std::collections::BTreeSet;

use super::place::can_fit;
use super::*;
use crate::builder;
use crate::vectors::rule_samples::p12;

/// The binary signs in the order in which these tests speak of them.
const BINARY: [&str; 6] = ["U", "&", "^", "|", "->", "<->"];

/// The nodes in their order, each by its sign; the operands must be those that stand before it.
fn signs_of(text: &str) -> String {
    let nodes = read(text.as_bytes()).unwrap_or_else(|refusal| panic!("{text:?}: {refusal}"));
    let mut waiting = Vec::new();
    let mut words = Vec::new();
    for (number, node) in nodes.iter().enumerate() {
        let (word, count) = word_of(node);
        let operands = waiting.split_off(waiting.len() - count);
        assert_eq!(node.operands, operands, "{text:?}, node {number}");
        waiting.push(number);
        words.push(word);
    }
    assert_eq!(waiting, [nodes.len() - 1], "{text:?}");
    words.join(" ")
}

/// The sign of a node and how many operands it takes, by the table of kinds.
fn word_of(node: &TextNode) -> (&'static str, usize) {
    match (node.kind, node.signal) {
        (0, 0) => ("false", 0),
        (1, 0) => ("true", 0),
        (2, signal) => (["s0", "s1", "s2", "s3"][usize::from(signal)], 0),
        (4, 0) => ("!", 1),
        (5, 0) => ("&", 2),
        (6, 0) => ("|", 2),
        (7, 0) => ("->", 2),
        (8, 0) => ("<->", 2),
        (9, 0) => ("^", 2),
        (10, 0) => ("X", 1),
        (11, 0) => ("U", 2),
        (12, 0) => ("F", 1),
        (13, 0) => ("G", 1),
        _ => panic!("no sign has {node:?}"),
    }
}

fn refusal(text: &[u8], signals: u8, room: usize) -> (u8, usize) {
    let mut output = vec![165; room];
    let refusal = write(text, signals, &mut output).unwrap_err();
    assert!(output.iter().all(|&byte| byte == 165));
    (refusal.number, refusal.place)
}

/// The place at which a text does not fit.
fn misfit(text: impl AsRef<[u8]>) -> usize {
    let (number, place) = refusal(text.as_ref(), 4, LONGEST_FILE);
    assert_eq!(number, 15, "{:?}", String::from_utf8_lossy(text.as_ref()));
    place
}

fn length(text: &[u8], signals: u8, room: usize) -> usize {
    write(text, signals, &mut vec![0; room]).unwrap()
}

#[test]
fn second_dose_has_its_bytes() {
    let expected = [
        &[4, 0, 0, 1, 2, 8][..],
        &[3, 0, 2, 0, 0],
        &[3, 0, 2, 0, 0],
        &[3, 0, 4, 0, 1],
        &[3, 0, 2, 0, 1],
        &[4, 0, 11, 0, 2, 3],
        &[3, 0, 10, 0, 4],
        &[4, 0, 7, 0, 0, 5],
        &[3, 0, 13, 0, 6],
    ];
    let mut output = [165; 60];
    assert_eq!(write(b"G (s0 -> X (!s0 U s1))", 2, &mut output), Ok(48));
    assert_eq!(output[..48], expected.concat());
    assert_eq!(output[48..], [165; 12]);
}

#[test]
fn second_dose_means_the_known_rule() {
    let table = |file: &[u8]| {
        let mut table = vec![0; 9479];
        let length = builder::build(file, &mut table).unwrap();
        table.truncate(length);
        table
    };
    let typed = file_of(b"G (s0 -> X (!s0 U s1))", 2).unwrap();
    assert_eq!(table(&typed), table(&p12().to_bytes()));
}

#[test]
fn every_sign_has_its_kind() {
    assert_eq!(file_of(b"s3", 4).unwrap(), [4, 0, 0, 1, 4, 1, 3, 0, 2, 0, 3]);
    assert_eq!(file_of(b"true", 1).unwrap(), [4, 0, 0, 1, 1, 1, 2, 0, 1, 0]);
    assert_eq!(file_of(b"false", 1).unwrap(), [4, 0, 0, 1, 1, 1, 2, 0, 0, 0]);
    for (sign, kind) in [("!", 4), ("X", 10), ("F", 12), ("G", 13)] {
        let file = file_of(format!("{sign}s1").as_bytes(), 2).unwrap();
        assert_eq!(file, [4, 0, 0, 1, 2, 2, 3, 0, 2, 0, 1, 3, 0, kind, 0, 0]);
    }
    for (sign, kind) in [("U", 11), ("&", 5), ("^", 9), ("|", 6), ("->", 7), ("<->", 8)] {
        let file = file_of(format!("s1{sign}true").as_bytes(), 3).unwrap();
        let nodes = [&[3, 0, 2, 0, 1][..], &[2, 0, 1, 0], &[4, 0, kind, 0, 0, 1]].concat();
        assert_eq!(file, [&[4, 0, 0, 1, 3, 3][..], &nodes].concat());
    }
}

/// Of `s0 A s1 B s2`: l if the first sign joins first, r if the second does. A row for each first sign.
const JOINED: [&str; 6] = [
    "r l l l l l", // U
    "r l l l l l", // &
    "r r l l l l", // ^
    "r r r l l l", // |
    "r r r r r l", // ->
    "r r r r r l", // <->
];

#[test]
fn two_binary_signs_join_as_they_bind_and_group() {
    for (first, row) in BINARY.iter().zip(JOINED) {
        for (second, joined) in BINARY.iter().zip(row.split(' ')) {
            let left_first = format!("s0 s1 {first} s2 {second}");
            let right_first = format!("s0 s1 s2 {second} {first}");
            let expected = if joined == "l" { &left_first } else { &right_first };
            assert_eq!(&signs_of(&format!("s0 {first} s1 {second} s2")), expected);
            assert_eq!(&signs_of(&format!("s0{first}s1{second}s2")), expected);
            assert_eq!(signs_of(&format!("(s0 {first} s1) {second} s2")), left_first);
            assert_eq!(signs_of(&format!("s0 {first} (s1 {second} s2)")), right_first);
            assert_eq!(&signs_of(&format!("((s0) {first} (s1) {second} (s2))")), expected);
        }
    }
}

#[test]
fn signs_group_to_their_side() {
    assert_eq!(signs_of("s0 U s1 U s2"), "s0 s1 s2 U U");
    assert_eq!(signs_of("s0 -> s1 -> s2"), "s0 s1 s2 -> ->");
    assert_eq!(signs_of("s0 & s1 & s2"), "s0 s1 & s2 &");
    assert_eq!(signs_of("s0 ^ s1 ^ s2"), "s0 s1 ^ s2 ^");
    assert_eq!(signs_of("s0 | s1 | s2"), "s0 s1 | s2 |");
    assert_eq!(signs_of("s0 <-> s1 <-> s2"), "s0 s1 <-> s2 <->");
    assert_eq!(signs_of("s0 U s1 U s2 U s3"), "s0 s1 s2 s3 U U U");
    assert_eq!(signs_of("s0 & s1 & s2 & s3"), "s0 s1 & s2 & s3 &");
    assert_eq!(
        signs_of("s0 <-> s1 -> s2 | s3 ^ s0 & s1 U s2"),
        "s0 s1 s2 s3 s0 s1 s2 U & ^ | -> <->"
    );
    assert_eq!(
        signs_of("s0 U s1 & s2 ^ s3 | s0 -> s1 <-> s2"),
        "s0 s1 U s2 & s3 ^ s0 | s1 -> s2 <->"
    );
    assert_eq!(signs_of("s0 -> s1 <-> s2 -> s3"), "s0 s1 -> s2 s3 -> <->");
    assert_eq!(signs_of("s0 & s1 U s2 & s3"), "s0 s1 s2 U & s3 &");
}

#[test]
fn prefixes_bind_tightest() {
    assert_eq!(signs_of("X s0 U s1"), "s0 X s1 U");
    assert_eq!(signs_of("X (s0 U s1)"), "s0 s1 U X");
    assert_eq!(signs_of("s0 U X s1 U s2"), "s0 s1 X s2 U U");
    assert_eq!(signs_of("!s0 & s1"), "s0 ! s1 &");
    assert_eq!(signs_of("G F !X s3"), "s3 X ! F G");
    assert_eq!(signs_of("G(s0->F s1)"), "s0 s1 F -> G");
    assert_eq!(signs_of("FfalseUGtrue"), "false F true G U");
}

#[test]
fn spaces_are_never_needed_and_never_matter_between_signs() {
    assert_eq!(signs_of("trueUs0"), "true s0 U");
    assert_eq!(signs_of("trueUfalse"), "true false U");
    assert_eq!(signs_of("  (  ( s0 )  U   s1 )  "), "s0 s1 U");
    assert_eq!(signs_of("s0"), "s0");
    assert_eq!(signs_of(" s0 "), "s0");
    assert_eq!(signs_of("!!!s0<->!s1"), "s0 ! ! ! s1 ! <->");
}

#[test]
fn a_text_that_merely_stops_is_refused_at_its_length() {
    for text in STOPPING {
        assert_eq!(misfit(text), text.len(), "{text:?}");
    }
}

#[test]
fn a_text_is_refused_at_the_first_byte_that_cannot_stand_there() {
    for (text, place) in MISFITS {
        assert_eq!(misfit(text), place, "{text:?}");
    }
    for byte in (0..=255).filter(|byte| !b" stf!XFG(".contains(byte)) {
        assert_eq!(misfit([byte]), 0, "{byte}");
    }
    for byte in (0..=255).filter(|byte| !b" U&^|-<".contains(byte)) {
        assert_eq!(misfit([b's', b'2', byte, b's']), 2, "{byte}");
    }
}

/// `inner` with so many bytes of one kind before and after it.
fn between(before: &str, count: usize, inner: &str, after: &str, closing: usize) -> Vec<u8> {
    format!("{}{inner}{}", before.repeat(count), after.repeat(closing)).into_bytes()
}

#[test]
fn texts_have_at_most_1024_bytes() {
    let pairs = between("(", 511, "s0", ")", 511);
    assert_eq!(pairs.len(), 1024);
    assert_eq!(file_of(&pairs, 1).unwrap(), [4, 0, 0, 1, 1, 1, 3, 0, 2, 0, 0]);
    for spaces in [1021, 1022] {
        assert_eq!(length(&between(" ", spaces, "s0", "", 0), 1, 11), 11);
        assert_eq!(length(&between("", 0, "s0", " ", spaces), 1, 11), 11);
    }
    assert_eq!(misfit(between(" ", 1023, "s0", "", 0)), 1024);
    assert_eq!(misfit(between("", 0, "s0", " ", 1023)), 1024);
    assert_eq!(misfit(between(")", 1025, "", "", 0)), 1024);
    assert_eq!(misfit(vec![0; 1025]), 1024);
    assert_eq!(misfit(vec![255; 70_000]), 1024);
    assert_eq!(misfit(vec![0; 1024]), 0);
}

#[test]
fn whether_more_could_fit_knows_no_limit() {
    for count in [1022, 1023, 1024] {
        assert_eq!(misfit(between("(", count, "", "", 0)), count);
        assert_eq!(misfit(between("!", count, "", "", 0)), count);
        assert_eq!(misfit(between(" ", count, "", "", 0)), count);
    }
    assert_eq!(misfit(between("(", 512, "s0", ")", 510)), 1024);
    assert_eq!(misfit(between("(", 510, "s0", ")", 512)), 1022);
    assert_eq!(misfit(between("(", 1023, "", ")", 1)), 1023);
    assert_eq!(misfit(between("s0 U ", 204, "s1X", "", 0)), 1022);
}

#[test]
fn files_have_at_most_64_nodes() {
    let nots = |count| between("!", count, "s0", "", 0);
    assert_eq!(length(&nots(63), 1, 326), 6 + 64 * 5);
    assert_eq!(refusal(&nots(64), 1, 326), (16, 0));
    assert_eq!(refusal(&nots(1022), 1, 326), (16, 0));
    let ands = |count| between("s0&", count, "s0", "", 0);
    assert_eq!(length(&ands(31), 1, 357), 6 + 32 * 5 + 31 * 6);
    assert_eq!(refusal(&ands(32), 1, 357), (16, 0));
    assert_eq!(refusal(&ands(340), 1, 357), (16, 0));
    assert_eq!(refusal(&between("s0U", 340, "s0", "", 0), 1, 357), (16, 0));
}

#[test]
fn the_longest_file_is_that_of_31_binary_signs_and_a_prefix() {
    let text = between("!s0&", 1, &"s0&".repeat(30), "s0", 1);
    assert_eq!(length(&text, 1, LONGEST_FILE), LONGEST_FILE);
    assert_eq!(LONGEST_FILE, 357);
    assert_eq!(refusal(&text, 1, LONGEST_FILE - 1), (10, 0));
}

#[test]
fn seven_temporal_signs_are_taken_and_eight_refused() {
    for sign in ["X", "F", "G", "s0 U "] {
        assert!(length(&between(sign, 7, "s0", "", 0), 1, 100) > 0);
        assert_eq!(refusal(&between(sign, 8, "s0", "", 0), 1, 100), (8, 0));
    }
    assert_eq!(refusal(b"X s0 U F s0 & G (X s0 U F s0) U X s0", 1, 0), (8, 0));
    assert_eq!(length(b"X s0 U F s0 & G (X s0 U F s0) | !s0", 1, 100), 6 + 11 * 5 + 4 * 6);
}

#[test]
fn a_signal_is_below_the_number_of_signals() {
    for signals in 1..=4 {
        for signal in 0..4 {
            let text = format!("!s{signal}");
            if signal < signals {
                assert_eq!(length(text.as_bytes(), signals, 16), 16);
            } else {
                assert_eq!(refusal(text.as_bytes(), signals, 16), (7, 0));
            }
        }
    }
    assert_eq!(refusal(b"s3", 3, 11), (7, 0));
    assert_eq!(refusal(b"s3", 2, 11), (7, 0));
}

#[test]
fn the_first_refusal_of_the_order_is_given() {
    let eight = "X".repeat(8) + "s3";
    let many = "!".repeat(70) + &eight;
    for signals in [0, 5, 255] {
        assert_eq!(refusal(b"s0 &", signals, 0), (15, 4));
        assert_eq!(refusal(&[b' '; 1025], signals, 0), (15, 1024));
        assert_eq!(refusal(many.as_bytes(), signals, 0), (4, 0));
        assert_eq!(refusal(b"s0", signals, 100), (4, 0));
    }
    assert_eq!(refusal(many.as_bytes(), 3, 0), (16, 0));
    assert_eq!(refusal(eight.as_bytes(), 3, 0), (7, 0));
    assert_eq!(refusal(eight.as_bytes(), 4, 0), (8, 0));
    assert_eq!(refusal(b"s3", 4, 10), (10, 0));
    assert_eq!(refusal(b"s3", 4, 0), (10, 0));
    assert_eq!(length(b"s3", 4, 11), 11);
}

/// All texts of `length` bytes out of these.
fn texts(bytes: &[u8], length: usize) -> Vec<Vec<u8>> {
    (0..length).fold(vec![Vec::new()], |texts, _| {
        let longer = |text: &Vec<u8>| -> Vec<Vec<u8>> {
            bytes.iter().map(|&byte| [&text[..], &[byte]].concat()).collect()
        };
        texts.iter().flat_map(longer).collect()
    })
}

/// A beginning of three bytes out of these fits with five more, if it ever does: the tried endings find
/// exactly those that some text of up to eight bytes fits.
#[test]
fn the_tried_endings_are_enough_for_short_beginnings() {
    for bytes in [b"s0()U", b"s0(!)", b"<->s0", b"tru e"] {
        let mut hopeful = BTreeSet::new();
        for length in 1..=8 {
            let fitting = texts(bytes, length).into_iter().filter(|text| read_whole(text));
            hopeful.extend(fitting.map(|text| text[..length.min(3)].to_vec()));
        }
        for beginning in (1..=3).flat_map(|length| texts(bytes, length)) {
            let expected = hopeful.iter().any(|longer| longer.starts_with(&beginning));
            assert_eq!(can_fit(&beginning), expected, "{beginning:?}");
        }
    }
}

/// True if the text fits; then it has one reading.
fn read_whole(text: &[u8]) -> bool {
    let readings = Chart::of(text).whole().len();
    assert!(readings <= 1, "{text:?}");
    readings == 1
}
