//! Two recordings of the same events with gaps, document 02's C-17.
//!
//! A recorded event is read signal by signal: on, off, or nothing. The completions of what both
//! say together are written out as lists, and each is run by itself. Only where they are too many
//! is it a set of states that is stepped.

use std::collections::BTreeSet;

use crate::counted::{opened, Counted};
use crate::mask;
use crate::refusal::Refusal;
use crate::table::{Monitor, Verdict};

/// The most events that all completions together may have to be written out.
pub const LIST_LIMIT: usize = 4096;

/// One recorded event as it is lent. Its bytes may be any.
#[derive(Clone, Copy, Debug, PartialEq, Eq)]
pub struct Seen {
    pub known: u8,
    pub values: u8,
}

/// Which of the two recordings.
#[derive(Clone, Copy, Debug, PartialEq, Eq)]
pub enum Side {
    First,
    Second,
}

/// Why a recorded event is refused, in the order in which it is judged.
#[derive(Clone, Copy, Debug, PartialEq, Eq)]
pub enum Fault {
    /// A bit at or above P says that a signal is known.
    HighKnown(Side),
    /// A value bit at or above P.
    HighValue(Side),
    /// A value bit of a signal that is unknown.
    UnknownValue(Side),
    /// Both know a signal, with different values.
    Contradiction,
    /// No possible event has all that is known.
    NoCompletion,
}

impl Fault {
    pub fn number(self) -> u8 {
        match self {
            Fault::Contradiction => 23,
            _ => 12,
        }
    }
}

/// What is said of a signal; nothing where it is unknown.
type Said = Option<bool>;

impl Seen {
    /// What is said of the signal with a number.
    fn said(self, signal: u8) -> Said {
        has(self.known, signal).then_some(has(self.values, signal))
    }

    /// What is wrong with the event of one recording, whatever the other says.
    fn faults(self, signals: u8, side: Side) -> impl Iterator<Item = Fault> {
        let is_high = |byte: u8| (signals..8).any(|signal| has(byte, signal));
        let is_unasked = |signal: u8| self.said(signal).is_none() && has(self.values, signal);
        let all = [
            (is_high(self.known), Fault::HighKnown(side)),
            (is_high(self.values), Fault::HighValue(side)),
            ((0..signals).any(is_unasked), Fault::UnknownValue(side)),
        ];
        all.into_iter().filter(|(is_so, _)| *is_so).map(|(_, fault)| fault)
    }
}

fn has(byte: u8, bit: u8) -> bool {
    byte >> bit & 1 == 1
}

/// What both say of a signal. Where they contradict each other it is on.
fn together(first: Said, second: Said) -> Said {
    match (first, second) {
        (Some(first), Some(second)) => Some(first || second),
        (said, None) | (None, said) => said,
    }
}

/// The events of a recording. An odd byte at the end is left out.
pub fn events(recording: &[u8]) -> impl Iterator<Item = Seen> + '_ {
    recording.chunks_exact(2).map(|pair| Seen { known: pair[0], values: pair[1] })
}

/// The possible events, ascending, that have all that either knows.
pub fn choices<'a>(table: &'a Counted, first: Seen, second: Seen) -> impl Iterator<Item = u8> + 'a {
    let said = move |signal: u8| together(first.said(signal), second.said(signal));
    let agrees =
        move |event: u8, signal: u8| said(signal).is_none_or(|on| on == has(event, signal));
    let signals = table.signals;
    let all = mask::events(table.possible);
    all.filter(move |&event| (0..signals).all(|signal| agrees(event, signal)))
}

/// All that makes a recorded event wrong, each by itself, in the order in which it is judged.
pub fn faults(table: &Counted, first: Seen, second: Seen) -> Vec<Fault> {
    let are_different = |signal: u8| match (first.said(signal), second.said(signal)) {
        (Some(first), Some(second)) => first != second,
        _ => false,
    };
    let contradicts = (0..table.signals).any(are_different);
    let is_impossible = choices(table, first, second).next().is_none();
    let alone = first.faults(table.signals, Side::First);
    let alone = alone.chain(second.faults(table.signals, Side::Second));
    let joined = contradicts.then_some(Fault::Contradiction).into_iter();
    alone.chain(joined).chain(is_impossible.then_some(Fault::NoCompletion)).collect()
}

/// Whether the lengths are those of two recordings of the same events.
pub fn lengths_fit(first: &[u8], second: &[u8]) -> bool {
    first.len() == second.len() && first.len().is_multiple_of(2)
}

/// For each event its choices. Refused by 22, then event by event by 12 and 23.
pub fn joined(table: &Counted, first: &[u8], second: &[u8]) -> Result<Vec<Vec<u8>>, Refusal> {
    if !lengths_fit(first, second) {
        return Err(Refusal::new(22, 0));
    }
    let each = events(first).zip(events(second)).enumerate();
    let choices_at = |(index, (first, second))| match faults(table, first, second).first() {
        Some(fault) => Err(Refusal::new(fault.number(), index)),
        None => Ok(choices(table, first, second).collect()),
    };
    each.map(choices_at).collect()
}

/// How many completions there are; `usize::MAX` stands for that many or more.
pub fn completion_count(choices: &[Vec<u8>]) -> usize {
    choices.iter().fold(1, |count: usize, choices| count.saturating_mul(choices.len()))
}

/// Whether the completions are few and short enough to be written out.
pub fn are_listed(choices: &[Vec<u8>]) -> bool {
    completion_count(choices).saturating_mul(choices.len()) <= LIST_LIMIT
}

/// Every completion as a list, the last event's choice changing first.
pub fn completions(choices: &[Vec<u8>]) -> impl Iterator<Item = Vec<u8>> + '_ {
    let digits = |mut number: usize| {
        let mut list: Vec<u8> = Vec::with_capacity(choices.len());
        for choices in choices.iter().rev() {
            list.push(choices[number % choices.len()]);
            number /= choices.len();
        }
        list.reverse();
        list
    };
    (0..completion_count(choices)).map(digits)
}

/// The verdict with which a run from state 0 over a list ends; none where its way leaves the table.
pub fn ended(table: &Counted, list: &[u8]) -> Option<Verdict> {
    let start = table.verdict(0)?;
    let end = list.iter().try_fold((0, start), |(state, _), &event| {
        table.step(state, event).ok().map(|end| (end.end_state, end.verdict))
    });
    end.map(|(_, verdict)| verdict)
}

/// What all of these show, or undecided. There is at least one.
fn shown_by_all(verdicts: impl IntoIterator<Item = Verdict>) -> Verdict {
    let mut verdicts = verdicts.into_iter();
    let first = verdicts.next().expect("there is a completion");
    if verdicts.all(|verdict| verdict == first) {
        first
    } else {
        Verdict::Undecided
    }
}

/// Runs every completion by itself; none where the way of one leaves the table. The table, where
/// the bytes are one, is run as any other list is.
pub fn by_lists(
    table: &Counted,
    monitor: Option<&Monitor>,
    choices: &[Vec<u8>],
) -> Option<Verdict> {
    let end = |list: Vec<u8>| match monitor {
        Some(monitor) => Some(monitor.run(0, &list).expect("each event can happen").verdict),
        None => ended(table, &list),
    };
    let ends: Option<Vec<Verdict>> = completions(choices).map(end).collect();
    ends.map(shown_by_all)
}

/// The states in which a run can stand after each event, the start first; none where a way leaves
/// the table.
pub fn sets(table: &Counted, choices: &[Vec<u8>]) -> Option<Vec<BTreeSet<u16>>> {
    table.verdict(0)?;
    let mut all = vec![BTreeSet::from([0])];
    for choices in choices {
        let last = all.last().expect("the start is there");
        let steps = last.iter().flat_map(|&state| choices.iter().map(move |&event| (state, event)));
        let step = |(state, event)| table.step(state, event).ok().map(|end| end.end_state);
        all.push(steps.map(step).collect::<Option<_>>()?);
    }
    Some(all)
}

/// Steps the set of states in which a run can stand; none where a way leaves the table.
pub fn by_sets(table: &Counted, choices: &[Vec<u8>]) -> Option<Verdict> {
    let last = sets(table, choices)?.pop().expect("the start is there");
    let verdicts = last.into_iter().map(|state| table.verdict(state).expect("a step tested it"));
    Some(shown_by_all(verdicts))
}

/// Joins two recordings and runs the table from state 0 over all completions. Order 14, 22, for
/// each event 12, 23, 12, and then 14 where a way leaves the table.
pub fn judge(
    (bytes, given): (&[u8], u64),
    first: &[u8],
    second: &[u8],
) -> Result<Verdict, Refusal> {
    let table = Counted::new(bytes, given).ok_or(Refusal::new(14, 0))?;
    let choices = joined(&table, first, second)?;
    let shown = if are_listed(&choices) {
        let monitor = Monitor::open(bytes).ok();
        let is_given =
            |found: &Monitor| opened(found.signals, table.number, found.states.len()) == given;
        let monitor = monitor.filter(is_given);
        by_lists(&table, monitor.as_ref(), &choices)
    } else {
        by_sets(&table, &choices)
    };
    shown.ok_or(Refusal::new(14, 0))
}

#[cfg(test)]
mod tests;
