//! Rule texts to rule files: the proved library beside plain Rust that does the same job.

use std::hint::black_box;

use crate::clock::Work;
use crate::plain_writer;
use crate::tefuji::{self, RULE_MAX};

/// A text over two signals, under its name.
pub struct Text {
    pub name: &'static str,
    pub bytes: Vec<u8>,
}

fn text(name: &'static str, bytes: impl Into<Vec<u8>>) -> Text {
    Text { name, bytes: bytes.into() }
}

/// `inner` between so many signs before it and as many after it.
fn between(before: &str, after: &str, count: usize, inner: &str) -> String {
    before.repeat(count) + inner + &after.repeat(count)
}

/// What is typed every day.
pub fn typical() -> Text {
    text("after a dose, no second until acknowledged", "G (s0 -> X (!s0 U s1))")
}

/// As many nodes as a file has, in the longest file.
fn fullest() -> Text {
    text("64 nodes", between("s0 & ", "", 31, "!s1"))
}

/// As many bytes as are taken, of each kind that goes deep or far.
pub fn longest() -> Vec<Text> {
    vec![
        text("511 pairs of brackets", between("(", ")", 511, "s0")),
        text(
            "63 prefixes and 479 pairs of brackets",
            between("(", ")", 479, &between("!", "", 63, "s0")),
        ),
        text(
            "31 signs to the right, each with 13 pairs of brackets",
            between(&("s0U".to_owned() + &"(".repeat(13)), &")".repeat(13), 31, "s0"),
        ),
        text("1,024 opening brackets, refused", "(".repeat(1024)),
        text("1,022 prefixes, refused", between("!", "", 1022, "s0")),
        text("340 pairs of brackets with prefixes, refused", between("(!", ")", 340, "s0")),
        text("340 signs that group to the right, refused", between("s0U", "", 340, "s1")),
        text("340 signs that group to the left, refused", between("s0&", "", 340, "s1")),
        text("204 signs and brackets, refused", between("(s0&", ")", 204, "s1")),
        text("1,022 spaces", between(" ", "", 1022, "s0")),
    ]
}

fn print_row(work: &Work, Text { name, bytes }: &Text) {
    let mut our_rule = vec![0; RULE_MAX];
    let mut plain_rule = vec![0; RULE_MAX];
    let our_answer = tefuji::write(bytes, 2, &mut our_rule);
    let our_answer = our_answer.map_err(|refusal| (refusal.number, refusal.place as usize));
    assert_eq!(our_answer, plain_writer::write(bytes, 2, &mut plain_rule), "{name}");
    assert_eq!(our_rule, plain_rule, "{name}");
    let ours = work.nanoseconds(|| tefuji::write(black_box(bytes), 2, &mut our_rule)) / 1000.0;
    let plain =
        work.nanoseconds(|| plain_writer::write(black_box(bytes), 2, &mut plain_rule)) / 1000.0;
    println!("| {name} | {} | {ours:.2} | {plain:.2} | {:.1} |", bytes.len(), ours / plain);
}

pub fn report(work: &Work) {
    println!("\n| writing a text's rule file, µs | bytes | proved | plain | ratio |\n|---|---|---|---|---|");
    for text in [typical(), fullest()].iter().chain(&longest()) {
        print_row(work, text);
    }
}
