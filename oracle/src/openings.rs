//! Openings and states, document 02's C-18: a table is opened with a number, states carry it, and
//! a run with another number is refused by 24.
//!
//! A run takes any bytes and any opening, as `counted` does. It is the run of `table` where the
//! bytes are a table of the opening's counts; over other bytes it goes step by step.
//!
//! `Ledger` states the law of several openings with distinct numbers. It is told what was answered,
//! and knows nothing of what is in a state.

use crate::counted::{number_of, Counted, Halt};
use crate::mask;
use crate::refusal::Refusal;
use crate::table::{Monitor, RunResult, Verdict};

/// A state of an opened table.
#[derive(Clone, Copy, Debug, PartialEq, Eq)]
pub struct State {
    /// The number of its opening.
    pub opening: u16,
    /// Its own number in the table.
    pub number: u16,
}

/// Where a run arrives, and the count of document 01.
#[derive(Clone, Copy, Debug, PartialEq, Eq)]
pub struct Arrived {
    pub state: State,
    pub verdict: Verdict,
    pub count: Option<usize>,
}

/// The start of an opening, whatever the value is.
pub fn start(opened: u64) -> State {
    State { opening: number_of(opened), number: 0 }
}

/// A run from a state over a list of events. Order 14 for the opening and the length, 24, 13, 12;
/// then 14 where the way leaves the table.
pub fn run((bytes, opened): (&[u8], u64), state: State, events: &[u8]) -> Result<Arrived, Refusal> {
    let table = Counted::new(bytes, opened).ok_or(Refusal::new(14, 0))?;
    if state.opening != table.number {
        return Err(Refusal::new(24, 0));
    }
    let end = match monitor_of(bytes, &table) {
        Some(monitor) => monitor.run(state.number, events)?,
        None => walk(&table, state.number, events)?,
    };
    let state = State { opening: table.number, number: end.end_state };
    Ok(Arrived { state, verdict: end.verdict, count: end.count })
}

/// The table that the bytes are, if they are one with these counts.
fn monitor_of(bytes: &[u8], table: &Counted) -> Option<Monitor> {
    let monitor = Monitor::open(bytes).ok()?;
    let counts = (monitor.signals, monitor.states.len());
    (counts == (table.signals, table.states.into())).then_some(monitor)
}

/// Event by event, over bytes that may be none of a table's.
fn walk(table: &Counted, state: u16, events: &[u8]) -> Result<RunResult, Refusal> {
    if state >= table.states {
        return Err(Halt::NoState.refusal());
    }
    if let Some(index) = events.iter().position(|&event| !mask::has(table.possible, event)) {
        return Err(Refusal::new(12, index));
    }
    let mut trail = vec![(state, table.verdict(state).ok_or(Halt::NoVerdict.refusal())?)];
    for &event in events {
        let (state, _) = trail[trail.len() - 1];
        let end = table.step(state, event).map_err(Halt::refusal)?;
        trail.push((end.end_state, end.verdict));
    }
    let count = trail.iter().position(|&(_, verdict)| verdict != Verdict::Undecided);
    let (end_state, verdict) = trail[trail.len() - 1];
    Ok(RunResult { end_state, verdict, count })
}

/// A state that a caller holds: the start of an opening, or what a run returned.
#[derive(Clone, Debug)]
pub struct Held {
    pub state: State,
    /// Which of the openings it was returned by.
    pub of: usize,
    /// All events since the start.
    pub since: Vec<u8>,
}

/// The law that is broken.
pub type Broken = &'static str;

const NOT_REFUSED: Broken = "a state of another opening is not refused by 24";
const REFUSED: Broken = "a state of this opening is refused by 24";
const OTHER_PLACE: Broken = "24 has another place than 0";
const OTHER_REFUSAL: Broken = "a state that was returned is refused by other than 24 and 12";
const NOT_THE_VERDICT: Broken = "the verdict is not that of all events since the start";
const NOT_REFUSED_BY_12: Broken = "an event that no run takes is not refused";

/// Several openings with distinct numbers, and all states that were returned by them.
pub struct Ledger<'a> {
    tables: Vec<&'a Monitor>,
    pub held: Vec<Held>,
}

impl<'a> Ledger<'a> {
    /// Each table with the start of its opening, as it was answered.
    pub fn new(openings: &[(&'a Monitor, State)]) -> Self {
        let tables = openings.iter().map(|&(monitor, _)| monitor).collect();
        let starts = openings.iter().enumerate();
        let held = starts.map(|(of, &(_, state))| Held { state, of, since: Vec::new() }).collect();
        Ledger { tables, held }
    }

    /// A run with this opening, from a state that is held, answered so. C-18: "refused by 24
    /// exactly if the state is another opening's; without a refusal it returns demand 2's verdict
    /// for all events since that start".
    pub fn told(
        &mut self,
        by: usize,
        from: usize,
        events: &[u8],
        answer: Result<Arrived, Refusal>,
    ) -> Result<(), Broken> {
        let Held { of, since, .. } = &self.held[from];
        let is_24 = answer.is_err_and(|refusal| refusal.number == 24);
        match is_24 {
            _ if (*of != by) != is_24 => return Err(if is_24 { REFUSED } else { NOT_REFUSED }),
            true if answer.is_err_and(|refusal| refusal.place != 0) => return Err(OTHER_PLACE),
            true => return Ok(()),
            false => {}
        }
        let all = [since, events].concat();
        let expected = self.tables[by].run(0, &all);
        match (answer, expected) {
            (Ok(arrived), Ok(end)) if arrived.verdict == end.verdict => {
                self.held.push(Held { state: arrived.state, of: by, since: all });
                Ok(())
            }
            (Ok(_), Ok(_)) => Err(NOT_THE_VERDICT),
            (Ok(_), Err(_)) => Err(NOT_REFUSED_BY_12),
            (Err(refusal), Err(_)) if refusal.number == 12 => Ok(()),
            (Err(_), _) => Err(OTHER_REFUSAL),
        }
    }
}

#[cfg(test)]
mod tests;
