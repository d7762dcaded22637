//! Rule texts, good and spoilt, and the number of signals to read them over.

use oracle::rng::Rng;
use oracle::rule_text::TEXT_LIMIT;
use oracle::vectors::text_samples::{self as samples, Plan};
use oracle::vectors::text_watched::{FITTING, MISFITS, STOPPING};

use super::Made;

pub struct Texts {
    watched: Vec<&'static str>,
}

impl Texts {
    pub fn new() -> Self {
        let fitting = FITTING.iter().map(|(text, _, _)| *text);
        let misfits = MISFITS.iter().map(|(text, _)| *text);
        Texts { watched: fitting.chain(STOPPING).chain(misfits).collect() }
    }

    pub fn any(&self, rng: &mut Rng) -> Made {
        let count = rng.between(1, 14);
        match rng.below(300) {
            0..=29 => Made::new("watched", rng.pick(&self.watched).as_bytes().to_vec()),
            30..=119 => Made::new("tree", tree(rng, 16)),
            120..=134 => Made::new("large tree", large_tree(rng)),
            135..=209 => Made::new("spoilt", spoilt(rng)),
            210..=244 => Made::new("wandering", samples::wandering(rng, count)),
            245..=264 => Made::new("signs", samples::soup_of_signs(rng, count)),
            265..=279 => Made::new("signs' bytes", samples::soup_of_bytes(rng, count)),
            280..=296 => Made::new("noise", noise(rng)),
            _ => Made::new("long", long(rng)),
        }
    }
}

/// Mostly all four signals, so that few texts name one that is not there; now and then any number.
pub fn signals(rng: &mut Rng) -> u8 {
    match rng.below(20) {
        0 => *rng.pick(&[0, 5, 255]),
        1 => rng.byte_below(256),
        2..=8 => 1 + rng.byte_below(4),
        _ => 4,
    }
}

fn tree(rng: &mut Rng, limit: usize) -> Vec<u8> {
    let plan = samples::short_plan(rng, limit);
    samples::random_text(rng, plan)
}

/// About as many nodes as a file has, now and then too many temporal signs.
fn large_tree(rng: &mut Rng) -> Vec<u8> {
    let temporal = rng.between(4, 9);
    let plan = Plan { nodes: rng.between(20, 70), signals: 4, temporal };
    samples::random_text(rng, plan)
}

fn spoilt(rng: &mut Rng) -> Vec<u8> {
    let mut text = tree(rng, 10);
    samples::spoil(rng, &mut text);
    text
}

/// Any bytes, alone or behind a text that fits.
fn noise(rng: &mut Rng) -> Vec<u8> {
    let count = rng.below(20);
    let noise = rng.bytes(count);
    match rng.below(3) {
        0 => [tree(rng, 4), noise].concat(),
        _ => noise,
    }
}

/// A text made about as long as may be, or longer, by spaces, prefixes or brackets before it.
fn long(rng: &mut Rng) -> Vec<u8> {
    let limit = *rng.pick(&[1, 4, 8]);
    let text = tree(rng, limit);
    let length = match rng.below(8) {
        0 => 70_000,
        1 => rng.between(TEXT_LIMIT + 1, 3000),
        _ => TEXT_LIMIT - 3 + rng.below(6),
    };
    let room = length - text.len();
    let byte = *rng.pick(b" !X(");
    match rng.below(3) {
        0 => [text, vec![b' '; room]].concat(),
        1 => [vec![byte; room], text].concat(),
        _ => [vec![b'('; room / 2], text, vec![b')'; room - room / 2]].concat(),
    }
}
