//! What the pairs of recordings met.

use std::collections::BTreeMap;
use std::fmt;

use super::judged::Judged;
use super::{is_seldom, named};

/// The least number of each of these.
const SOME: u64 = 20;

/// All that has to be met: refusals, and what was answered.
const WANTED: [&str; 92] = [
    "14 by counts or length",
    "14 before 22",
    "14 before 12",
    "14 before 23",
    "22 by two odd lengths, the same",
    "22 by two odd lengths, 2 apart",
    "22 by 1 apart, the first odd",
    "22 by 1 apart, the second odd",
    "22 by 2 less",
    "22 by 2 more",
    "22 by 256 apart",
    "22 by no event and some",
    "22 before 12",
    "22 before 23",
    "22 alone",
    "22 before 14 by a way",
    "12 by a high bit known to the first",
    "12 by a high bit known to the second",
    "12 by a high value bit of the first",
    "12 by a high value bit of the second",
    "12 by an unknown value of the first",
    "12 by an unknown value of the second",
    "12 by no completion",
    "12 by no completion, each by itself has",
    "12 by no completion with a gap",
    "12 where no event can happen",
    "23 alone",
    "23 by one signal of all",
    "23 by the highest signal",
    "23, the lowest signal is the same",
    "12 and 23 of one event",
    "23 and no completion of one event",
    "12 or 23 at the last event",
    "12 or 23 at the first event",
    "12 past event 255",
    "23 past event 255",
    "12 with a later 23",
    "12 with a later event without completion",
    "23 with a later 12",
    "23 with a later event without completion",
    "no completion with a later 12",
    "no completion with a later 23",
    "23 after a way left",
    "no completion after a way left",
    "12 after a way left",
    "14 by the start, no event",
    "14 by the start, and events",
    "14 by a verdict byte on the way",
    "14 by the last verdict byte",
    "14 by a missing successor",
    "14 by a successor past the states",
    "14 on some ways only",
    "14 on the only way",
    "no event, undecided",
    "no event, satisfied",
    "no event, violated",
    "no event, moot",
    "one completion, undecided",
    "one completion, satisfied",
    "one completion, violated",
    "one completion, moot",
    "several completions, satisfied",
    "several completions, violated",
    "several completions, moot",
    "more than 4096 completions",
    "more than 4096, decided",
    "nothing known, undecided",
    "nothing known, decided",
    "nothing known, with impossible events",
    "several completions, with impossible events",
    "known to both",
    "each knows what the other does not",
    "over what is no table",
    "with the number 0",
    "with the number 65535",
    "with another number",
    "255 events",
    "256 events",
    "257 events",
    "1000 events and more",
    "several completions, all undecided",
    "different verdicts, none undecided",
    "a verdict and undecided",
    "different verdicts by one completion alone",
    "different verdicts, one from where nothing leads",
    "past a verdict of all",
    "of 256 states",
    "through state 255",
    "ending in state 255",
    "more than 64 states at once",
    "more than 128 states at once",
    "fewer states than before",
];

#[derive(Default)]
pub struct Recordings {
    pairs: u64,
    met: BTreeMap<&'static str, u64>,
}

impl Recordings {
    pub fn add(&mut self, judged: &Judged) {
        self.pairs += 1;
        judged.words().into_iter().for_each(|words| *self.met.entry(words).or_default() += 1);
    }

    /// What was met fewer times than it has to be.
    pub fn missing(&self) -> Vec<String> {
        let few = WANTED.iter().filter(|words| is_seldom(&self.met, words, SOME));
        few.map(|words| format!("{SOME} times judge: {words}")).collect()
    }
}

impl fmt::Display for Recordings {
    fn fmt(&self, out: &mut fmt::Formatter<'_>) -> fmt::Result {
        write!(out, "{} pairs; {}", self.pairs, named(&self.met))
    }
}
