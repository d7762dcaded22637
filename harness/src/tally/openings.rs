//! What runs and steps met by the numbers of their openings, and states handed from one opening to
//! another.

use std::collections::BTreeMap;
use std::fmt;

use oracle::counted::{number_of, Counted};
use oracle::mask;
use oracle::openings::{self, Arrived, State};
use oracle::refusal::Refusal;
use oracle::table::Verdict;

use super::{is_seldom, named};

/// The least number of each of these.
const SOME: u64 = 20;

/// By a state's number beside that of the opening; a watch's, too.
pub const BY_NUMBERS: [&str; 9] = [
    "24, one less",
    "24, one more",
    "24 with the same low byte",
    "24 with the same high byte",
    "24 with the bytes swapped",
    "24 by 0",
    "24 by 65535",
    "24 where the opening's is 0",
    "24 where the opening's is 65535",
];
/// What a run and a step have in common.
const BY_BOTH: [&str; 16] = [
    "24 alone",
    "24, also 13",
    "24, also 12",
    "24, also 13 and 12",
    "24, also a way that leaves the table",
    "24 where the state's own number is the opening's",
    "14 by the opening or length",
    "14 by the opening or length, also 24",
    "14 by what it reads",
    "13 with the opening's number",
    "12 with the opening's number",
    "answered with the number 0",
    "answered with the number 65535",
    "answered with another number",
    "answered from a start",
    "answered over what is no table",
];
const BY_RUN: [&str; 2] = ["24 over no event", "24 over thousands of events"];
/// Of states that are handed from one opening to another.
const BY_HANDING: [&str; 12] = [
    "24 for the start of another",
    "24 for a state that a run of another returned",
    "24 for a state of the same table under another number",
    "24 between neighbouring numbers",
    "answered from its own start",
    "answered from a state that its own run returned",
    "answered with a verdict",
    "12 for a state of its own",
    "one number: answered for a state of the other table",
    "one number: answered for the start of the other table",
    "one number: 13 for a state of the other table",
    "one number: 12 for a state of the other table",
];

/// Words, each with whether they hold.
type Words = Vec<(bool, &'static str)>;

/// A run or a step and what it came to.
pub struct Ran<'a> {
    pub table: &'a [u8],
    pub is_table: bool,
    pub opened: u64,
    pub state: State,
    pub events: &'a [u8],
    pub answer: Result<Arrived, Refusal>,
}

/// A state of one opening handed to a run of another, or of its own.
pub struct Handed {
    /// Of the opening that returned the state, and of the run's.
    pub numbers: (u16, u16),
    pub is_same_table: bool,
    pub is_own: bool,
    pub is_start: bool,
    pub answer: Result<Arrived, Refusal>,
}

#[derive(Default)]
pub struct Openings {
    met: BTreeMap<&'static str, BTreeMap<&'static str, u64>>,
}

/// A number that is carried, where the opening has this other one.
pub fn numbers(carried: u16, own: u16) -> Words {
    let [low, high] = carried.to_le_bytes();
    let [own_low, own_high] = own.to_le_bytes();
    let all = [
        carried == own.wrapping_sub(1),
        carried == own.wrapping_add(1),
        low == own_low,
        high == own_high,
        carried == own.swap_bytes(),
        carried == 0,
        carried == 65535,
        own == 0,
        own == 65535,
    ];
    all.into_iter().zip(BY_NUMBERS).collect()
}

impl Ran<'_> {
    fn words(&self) -> Words {
        let own = number_of(self.opened);
        let is_foreign = self.state.opening != own;
        let table = Counted::new(self.table, self.opened);
        match self.answer {
            Err(Refusal { number: 24, .. }) => self.foreign(own),
            Err(Refusal { number: 14, .. }) => vec![
                (table.is_none(), "14 by the opening or length"),
                (table.is_none() && is_foreign, "14 by the opening or length, also 24"),
                (table.is_some(), "14 by what it reads"),
            ],
            Err(refusal) => vec![
                (refusal.number == 13, "13 with the opening's number"),
                (refusal.number == 12, "12 with the opening's number"),
            ],
            Ok(_) => vec![
                (own == 0, "answered with the number 0"),
                (own == 65535, "answered with the number 65535"),
                (own != 0 && own != 65535, "answered with another number"),
                (self.state == openings::start(self.opened), "answered from a start"),
                (!self.is_table, "answered over what is no table"),
            ],
        }
    }

    /// Refused by 24; what else applies.
    fn foreign(&self, own: u16) -> Words {
        let Some(table) = Counted::new(self.table, self.opened) else {
            return Vec::new();
        };
        let is_13 = self.state.number >= table.states;
        let is_12 = self.events.iter().any(|&event| !mask::has(table.possible, event));
        let at_home = State { opening: own, ..self.state };
        let at_home = openings::run((self.table, self.opened), at_home, self.events);
        let leaves = at_home.is_err_and(|refusal| refusal.number == 14);
        let others = vec![
            (at_home.is_ok(), "24 alone"),
            (is_13 && !is_12, "24, also 13"),
            (!is_13 && is_12, "24, also 12"),
            (is_13 && is_12, "24, also 13 and 12"),
            (leaves, "24, also a way that leaves the table"),
            (self.state.number == own, "24 where the state's own number is the opening's"),
            (self.events.is_empty(), "24 over no event"),
            (self.events.len() >= 4095, "24 over thousands of events"),
        ];
        [others, numbers(self.state.opening, own)].concat()
    }
}

impl Handed {
    fn words(&self) -> Words {
        let (of, by) = self.numbers;
        let by_number = |number: u8| self.answer.is_err_and(|refusal| refusal.number == number);
        let (is_24, is_one) = (by_number(24), of == by && !self.is_own && !self.is_same_table);
        let verdict = self.answer.ok().map(|end| end.verdict);
        let (is_own, answered) = (self.is_own, verdict.is_some());
        let holds = [
            is_24 && self.is_start,
            is_24 && !self.is_start,
            is_24 && self.is_same_table,
            is_24 && of.abs_diff(by) == 1,
            is_own && answered && self.is_start,
            is_own && answered && !self.is_start,
            is_own && verdict.is_some_and(|verdict| verdict != Verdict::Undecided),
            is_own && by_number(12),
            is_one && answered && !self.is_start,
            is_one && answered && self.is_start,
            is_one && by_number(13),
            is_one && by_number(12),
        ];
        holds.into_iter().zip(BY_HANDING).collect()
    }
}

impl Openings {
    /// Adds a run or a step.
    pub fn add(&mut self, kind: &'static str, ran: &Ran) {
        self.meet(kind, ran.words());
    }

    pub fn add_handed(&mut self, handed: &Handed) {
        self.meet("openings", handed.words());
    }

    fn meet(&mut self, kind: &'static str, words: Words) {
        let met = self.met.entry(kind).or_default();
        for (_, words) in words.into_iter().filter(|(is_so, _)| *is_so) {
            *met.entry(words).or_default() += 1;
        }
    }

    /// What was met fewer times than it has to be.
    pub fn missing(&self) -> Vec<String> {
        let wanted = [
            ("run", [&BY_BOTH[..], &BY_NUMBERS, &BY_RUN].concat()),
            ("step", [&BY_BOTH[..], &BY_NUMBERS].concat()),
            ("openings", BY_HANDING.to_vec()),
        ];
        let none = BTreeMap::new();
        let words = wanted.iter().flat_map(|(kind, words)| {
            let met = self.met.get(kind).unwrap_or(&none);
            let few = words.iter().filter(move |words| is_seldom(met, words, SOME));
            few.map(move |words| format!("{SOME} times {kind}: {words}"))
        });
        words.collect()
    }
}

impl fmt::Display for Openings {
    fn fmt(&self, out: &mut fmt::Formatter<'_>) -> fmt::Result {
        let kinds = self.met.iter().map(|(kind, met)| format!("{kind}: {}", named(met)));
        out.write_str(&kinds.collect::<Vec<_>>().join("; "))
    }
}
