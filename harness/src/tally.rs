//! What the cases met: how many of each kind and origin, how many answers and refusals.

mod desks;
pub mod judged;
pub mod openings;
mod recordings;
pub mod seen;

use std::collections::BTreeMap;
use std::fmt;

use oracle::mask;
use oracle::openings::Arrived;
use oracle::refusal::Refusal;
use oracle::table::Monitor;

use desks::Desks;
use openings::Openings;
use recordings::Recordings;

const KINDS: [&str; 7] = ["write", "build", "open", "run", "step", "text", "judge"];
/// What is called in the cases of desks and histories.
const DESK_KINDS: [&str; 3] = ["fresh", "post", "turn"];
const REFUSALS: std::ops::RangeInclusive<u8> = 1..=24;
/// The refusals of write, which have others' numbers and places of its own.
const WRITE_REFUSALS: [u8; 6] = [15, 4, 16, 7, 8, 10];

/// The most states of a table, and the least number of rules with as many.
const FULL: usize = 256;
const FULL_TABLES: u64 = 100;

/// What is done with tables and rules that have impossible events.
const MASKED_KINDS: [&str; 5] = ["build", "open", "run", "step", "text"];
/// The refusals that are new with impossible events.
const BROUGHT_BY_MASKS: [&str; 5] = [
    "7 by the mask",
    "17 by the mask",
    "12 by an impossible event",
    "12 by an impossible event past a verdict",
    "14 by missing successors",
];
/// The least number of each.
const SOME_MASKED: u64 = 20;

/// How far a step with an opening that need not be the table's comes.
const STRAYS: [&str; 8] = [
    "no table's counts or length",
    "a state with another number",
    "no state or event",
    "an impossible event",
    "a missing successor",
    "a successor past the states",
    "a verdict byte above 3",
    "answered",
];

#[derive(Default)]
pub struct Tally {
    origins: BTreeMap<(&'static str, &'static str), u64>,
    accepted: BTreeMap<&'static str, u64>,
    refused: BTreeMap<u8, u64>,
    refused_by_write: BTreeMap<u8, u64>,
    stray_steps: BTreeMap<&'static str, u64>,
    full_tables: u64,
    full_masked_tables: u64,
    /// By what was done: tables with impossible events, without a refusal.
    masked: BTreeMap<&'static str, u64>,
    brought_by_masks: BTreeMap<&'static str, u64>,
    pub desks: Desks,
    pub openings: Openings,
    pub recordings: Recordings,
}

impl Tally {
    pub fn add_case(&mut self, kind: &'static str, origin: &'static str) {
        *self.origins.entry((kind, origin)).or_default() += 1;
    }

    /// Adds an answer in which both sides agree: a refusal's number, or none.
    pub fn add_answer(&mut self, kind: &'static str, refused_by: Option<u8>) {
        let Some(number) = refused_by else {
            *self.accepted.entry(kind).or_default() += 1;
            return;
        };
        *self.refused.entry(number).or_default() += 1;
        if kind == "write" {
            *self.refused_by_write.entry(number).or_default() += 1;
        }
    }

    /// Adds a rule whose table both sides have built.
    pub fn add_table(&mut self, monitor: &Monitor) {
        let is_full = monitor.states.len() == FULL;
        self.full_tables += u64::from(is_full);
        self.full_masked_tables += u64::from(is_full && has_impossible_events(monitor));
        self.add_masked("build", monitor);
    }

    /// Adds something done with a table without a refusal, if the table has impossible events.
    pub fn add_masked(&mut self, kind: &'static str, monitor: &Monitor) {
        if has_impossible_events(monitor) {
            *self.masked.entry(kind).or_default() += 1;
        }
    }

    /// Adds a run over a table, or a step, with what it came to.
    pub fn add_run(
        &mut self,
        kind: &'static str,
        monitor: &Monitor,
        (state, events): (u16, &[u8]),
        ended: Result<Arrived, Refusal>,
    ) {
        let Err(refusal) = ended else {
            return self.add_masked(kind, monitor);
        };
        if refusal.number == 12 && events[refusal.place] < 1 << monitor.signals {
            self.add_brought_by_masks(Some("12 by an impossible event"));
            let before = monitor.run(state, &events[..refusal.place]);
            let is_decided = before.is_ok_and(|end| end.count.is_some());
            let words = "12 by an impossible event past a verdict";
            self.add_brought_by_masks(is_decided.then_some(words));
        }
    }

    /// Adds bytes that both sides refuse as a table.
    pub fn add_spoilt(&mut self, table: &[u8]) {
        let is_spoilt = Monitor::is_spoilt_by_missing_successors(table);
        self.add_brought_by_masks(is_spoilt.then_some("14 by missing successors"));
    }

    /// Adds a refusal that is new with impossible events, if it is one.
    pub fn add_brought_by_masks(&mut self, words: Option<&'static str>) {
        if let Some(words) = words {
            *self.brought_by_masks.entry(words).or_default() += 1;
        }
    }

    /// Adds a step with an opening that need not be the table's, by how far it came.
    pub fn add_stray(&mut self, came: &'static str) {
        *self.stray_steps.entry(came).or_default() += 1;
    }

    /// What has to be met, most of it once, and was not.
    pub fn missing(&self) -> Vec<String> {
        let kinds = KINDS.iter().chain(&DESK_KINDS);
        let kinds = kinds.filter(|kind| !self.accepted.contains_key(*kind));
        let numbers = REFUSALS.filter(|number| !self.refused.contains_key(number));
        let kinds = kinds.map(|kind| format!("an answer of {kind} other than a refusal"));
        let numbers = numbers.map(|number| format!("refusal {number}"));
        let written = WRITE_REFUSALS.iter().filter(|n| !self.refused_by_write.contains_key(n));
        let written = written.map(|number| format!("refusal {number} of write"));
        let strays = STRAYS.iter().filter(|came| !self.stray_steps.contains_key(*came));
        let strays = strays.map(|came| format!("a step with another opening, {came}"));
        let few = (self.full_tables < FULL_TABLES)
            .then(|| format!("{FULL_TABLES} tables with {FULL} states"));
        let all = kinds.chain(numbers).chain(written).chain(strays).chain(few);
        let all = all.chain(self.missing_of_masks()).chain(self.desks.missing());
        all.chain(self.recordings.missing()).chain(self.openings.missing()).collect()
    }

    /// The same of impossible events, each at least so often.
    fn missing_of_masks(&self) -> Vec<String> {
        let kinds = MASKED_KINDS.iter().filter(|kind| is_seldom(&self.masked, kind, SOME_MASKED));
        let kinds = kinds.map(|kind| format!("{SOME_MASKED} times {kind} with impossible events"));
        let refusals = BROUGHT_BY_MASKS.iter();
        let refusals =
            refusals.filter(|words| is_seldom(&self.brought_by_masks, words, SOME_MASKED));
        let refusals = refusals.map(|words| format!("{SOME_MASKED} times refusal {words}"));
        let full = (self.full_masked_tables < SOME_MASKED)
            .then(|| format!("{SOME_MASKED} tables with {FULL} states and impossible events"));
        kinds.chain(refusals).chain(full).collect()
    }

    fn write_kind(&self, out: &mut fmt::Formatter<'_>, kind: &str) -> fmt::Result {
        let origins = || self.origins.iter().filter(|((of, _), _)| *of == kind);
        let cases: u64 = origins().map(|(_, count)| count).sum();
        let listed: Vec<String> =
            origins().map(|((_, origin), count)| format!("{origin} {count}")).collect();
        write!(out, "{kind} {cases} ({})", listed.join(", "))?;
        match self.accepted.get(kind) {
            Some(accepted) => write!(out, ", accepted {accepted}; "),
            None => write!(out, "; "),
        }
    }
}

impl fmt::Display for Tally {
    fn fmt(&self, out: &mut fmt::Formatter<'_>) -> fmt::Result {
        for kind in KINDS.iter().chain(&["desk", "history", "openings"]) {
            self.write_kind(out, kind)?;
        }
        for kind in DESK_KINDS {
            write!(out, "{kind} accepted {}; ", self.accepted.get(kind).unwrap_or(&0))?;
        }
        write!(out, "refused {}; ", listed(&self.refused))?;
        write!(out, "of these by write {}; ", listed(&self.refused_by_write))?;
        write!(out, "of these {}; ", named(&self.brought_by_masks))?;
        write!(out, "accepted with impossible events: {}; ", named(&self.masked))?;
        write!(out, "tables with {FULL} states: {}, ", self.full_tables)?;
        write!(out, "{} of them with impossible events; ", self.full_masked_tables)?;
        write!(out, "steps with other openings: {}; ", named(&self.stray_steps))?;
        write!(out, "desks: {}; ", self.desks)?;
        write!(out, "recordings: {}; ", self.recordings)?;
        write!(out, "by the numbers of openings: {}", self.openings)
    }
}

/// Met fewer times than it has to be.
fn is_seldom(counts: &BTreeMap<&'static str, u64>, words: &str, least: u64) -> bool {
    *counts.get(words).unwrap_or(&0) < least
}

fn has_impossible_events(monitor: &Monitor) -> bool {
    monitor.possible() != mask::full(monitor.signals)
}

/// Numbers and how often each was met.
fn listed(counts: &BTreeMap<u8, u64>) -> String {
    let counts = counts.iter().map(|(number, count)| format!("{number}: {count}"));
    counts.collect::<Vec<_>>().join(", ")
}

/// Words and how often each was met.
fn named(counts: &BTreeMap<&'static str, u64>) -> String {
    let counts = counts.iter().map(|(words, count)| format!("{words} {count}"));
    counts.collect::<Vec<_>>().join(", ")
}
