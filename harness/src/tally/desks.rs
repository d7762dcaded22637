//! What the calls over desks met, and the histories.

use std::collections::BTreeMap;
use std::fmt;

use oracle::desk::{Tunnel, ROW_LIMIT};
use oracle::history::History;

use super::openings::BY_NUMBERS;
use super::seen::Seen;
use super::{is_seldom, named};

/// The least number of each of these.
const SOME: u64 = 20;

/// The order in which a post is refused; a turn only by the first four, a fresh desk by the first
/// two.
const ORDER: [u8; 8] = [14, 18, 24, 13, 19, 12, 20, 21];
/// A tunnel outside the row has no queue, and has heard nothing.
const APART: [(u8, u8); 2] = [(19, 20), (19, 21)];

const BY_ROW: [&str; 2] = ["18 empty", "18 above 64"];
/// What a post and a turn have in common.
const BY_BOTH: [&str; 32] = [
    "14 by counts or length",
    "24 at the first watch",
    "24 in between",
    "24 at the row's end",
    "24 with a later foreign watch",
    "24 of all watches",
    "24 behind a wrong watch",
    "24 at a wrong watch",
    "24 before a wrong watch",
    "13 by a state",
    "13 by over 32 waiting",
    "13 by a byte that is no event",
    "13 by an impossible event",
    "13 with a later wrong watch",
    "13 at the row's end",
    "13 by the sum",
    "13 by the sum, one too large",
    "13 by 4294967295 heard, 1 waiting",
    "13 by 4294967264 heard, 32 waiting",
    "13 by 4294967294 heard, 32 waiting",
    "13 by 4294967295 heard, 32 waiting",
    "13 by the sum and more",
    "13 by the sum, later by another",
    "13 by another, later by the sum",
    "with other bytes in free slots",
    "with impossible events",
    "with 4294967295 heard, 0 waiting",
    "with 4294967294 heard, 0 waiting",
    "with 4294967294 heard, 1 waiting",
    "with 4294967263 heard, 32 waiting",
    "with the number 0",
    "with the number 65535",
];
const BY_POST: [&str; 16] = [
    "19 at the row's end",
    "19 past 2^56",
    "12 by a byte that is no event",
    "19 where the last tunnel had its last event",
    "19 where the tunnel of the low byte had its last event",
    "12 by an impossible event",
    "20",
    "21",
    "21 with 0 waiting",
    "21 with 1 waiting",
    "21 with 31 waiting",
    "to the last of 64",
    "to an empty queue",
    "to the last slot",
    "of the last event",
    "to a filled watch",
];
const BY_TURN: [&str; 20] = [
    "14 by what it reads",
    "24 though none waits",
    "none waits",
    "heard with 32 waiting",
    "heard at the next number",
    "heard by going round",
    "heard at the given number itself",
    "heard after a number outside",
    "heard of 64",
    "heard the last event",
    "filled by satisfied",
    "filled by violated",
    "filled by moot",
    "left unfilled",
    "left unfilled, first not 0",
    "kept at a verdict",
    "kept where undecided",
    "kept filled by more than 1",
    "kept filled in the high byte",
    "kept first above heard",
];
const BY_FRESH: [&str; 15] = [
    "14 by counts or length",
    "14 by what it reads",
    "14 by counts or length, also 18",
    "14 by what it reads, also 18",
    "over a wrong watch",
    "over a foreign watch",
    "with the number 0",
    "with the number 65535",
    "with another number",
    "of 64",
    "over what is no table",
    "with the start undecided",
    "with the start satisfied",
    "with the start violated",
    "with the start moot",
];
const BY_HISTORY: [&str; 9] = [
    "of 64",
    "waits as long as the row",
    "waits as long as 64",
    "where verdicts last, remembered from the start",
    "where verdicts last, remembered from an event",
    "where verdicts last, none remembered",
    "where verdicts pass, remembered",
    "with another opening, refused by 24",
    "with another opening, refused by 24, and heard",
];

#[derive(Default)]
pub struct Desks {
    /// By what was called: what it met.
    met: BTreeMap<&'static str, BTreeMap<&'static str, u64>>,
    /// By what was called: the refusal, and a later one that applies too.
    pairs: BTreeMap<&'static str, BTreeMap<(u8, u8), u64>>,
    histories: u64,
}

impl Desks {
    pub fn add(&mut self, seen: &Seen) {
        let kind = seen.call.kind();
        seen.words().into_iter().for_each(|words| self.meet(kind, words));
        if let Err(refusal) = seen.answer {
            let pairs = self.pairs.entry(kind).or_default();
            let later = seen.applying().into_iter().filter(|&number| number != refusal.number);
            later.for_each(|later| *pairs.entry((refusal.number, later)).or_default() += 1);
        }
    }

    /// Adds a history that has come to an end, with the desk as it stands then, and how often it
    /// was tried with another opening.
    pub fn add_history(&mut self, history: &History, desk: &[Tunnel], strangers: usize) {
        let row = desk.len();
        let (is_full, is_tight) = (row == ROW_LIMIT, row > 1 && history.longest_wait() == row);
        let lasts = history.verdicts_last();
        let firsts = || desk.iter().filter(|tunnel| tunnel.heard > 0).map(Tunnel::first_verdict);
        let words = BY_HISTORY.into_iter().zip([
            is_full,
            is_tight,
            is_full && is_tight,
            lasts && firsts().any(|first| first == Some(0)),
            lasts && firsts().any(|first| first > Some(0)),
            lasts && firsts().any(|first| first.is_none()),
            !lasts && firsts().any(|first| first.is_some()),
            strangers > 0,
            strangers > 0 && desk.iter().any(|tunnel| tunnel.heard > 0),
        ]);
        words.filter(|(_, is_so)| *is_so).for_each(|(words, _)| self.meet("history", words));
        self.histories += 1;
    }

    fn meet(&mut self, kind: &'static str, words: &'static str) {
        *self.met.entry(kind).or_default().entry(words).or_default() += 1;
    }

    /// What was met fewer times than it has to be.
    pub fn missing(&self) -> Vec<String> {
        let wanted = [
            ("fresh", [&BY_ROW[..], &BY_FRESH].concat()),
            ("post", [&BY_ROW[..], &BY_BOTH, &BY_NUMBERS, &BY_POST].concat()),
            ("turn", [&BY_ROW[..], &BY_BOTH, &BY_NUMBERS, &BY_TURN].concat()),
            ("history", BY_HISTORY.to_vec()),
        ];
        let none = BTreeMap::new();
        let words = wanted.iter().flat_map(|(kind, words)| {
            let met = self.met.get(kind).unwrap_or(&none);
            let few = words.iter().filter(move |words| is_seldom(met, words, SOME));
            few.map(move |words| format!("{SOME} times {kind}: {words}"))
        });
        let orders = [("fresh", &ORDER[..2]), ("post", &ORDER), ("turn", &ORDER[..4])];
        let pairs = orders.iter().flat_map(|(kind, order)| self.missing_pairs(kind, order));
        words.chain(pairs).collect()
    }

    /// The pairs of refusals in one call, neighbours and others, that were met too seldom.
    fn missing_pairs(&self, kind: &'static str, order: &[u8]) -> Vec<String> {
        let is_seldom = |pair: &(u8, u8)| {
            let count = self.pairs.get(kind).and_then(|pairs| pairs.get(pair));
            *count.unwrap_or(&0) < SOME
        };
        let later =
            |place: usize| order[place + 1..].iter().map(move |&later| (order[place], later));
        let pairs = (0..order.len()).flat_map(later).filter(|pair| !APART.contains(pair));
        let few = pairs.filter(is_seldom);
        few.map(|(first, later)| format!("{SOME} times {kind}: {first} before {later}")).collect()
    }
}

impl fmt::Display for Desks {
    fn fmt(&self, out: &mut fmt::Formatter<'_>) -> fmt::Result {
        write!(out, "{} histories", self.histories)?;
        for (kind, met) in &self.met {
            write!(out, "; {kind}: {}", named(met))?;
        }
        for (kind, pairs) in &self.pairs {
            let pairs = pairs.iter().map(|((a, b), count)| format!("{a} before {b} {count}"));
            write!(out, "; {kind} refused by {}", pairs.collect::<Vec<_>>().join(", "))?;
        }
        Ok(())
    }
}
