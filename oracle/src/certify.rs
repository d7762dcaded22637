//! Holds a table against the search for traces.
//!
//! The table says how states follow each other and what they show; whether it
//! is right is judged by lassos behind lists of events. Nothing here knows how
//! a table is built.

mod all;
mod telling;

use std::collections::HashSet;

pub use all::{certify_all, Summary};
use telling::Telling;

use crate::lasso::{satisfies, POSITIONS};
use crate::mask;
use crate::rule::Rule;
use crate::search::{Bounds, Class, Judgement, Search};
use crate::table::{Monitor, Verdict};

/// What was needed to certify one table.
#[derive(Clone, Debug)]
pub struct Report {
    /// How many events can happen.
    pub events: usize,
    /// How many states show each verdict, by the verdict's byte.
    pub states: [usize; 4],
    pub lists: usize,
    pub longest_list: usize,
    pub longest_lasso: usize,
}

/// How many further events are tried behind a moot state, where so many can happen.
pub fn moot_depth(events: usize) -> usize {
    match events {
        ..=2 => 6,
        3 => 5,
        4 | 5 => 4,
        6..=8 => 3,
        _ => 2,
    }
}

/// Certifies the table of a rule, or says what is wrong with it.
pub fn certify(rule: &Rule, table: &[u8], bounds: Bounds) -> Result<Report, String> {
    let monitor = Monitor::open(table).map_err(|refusal| format!("not a table: {refusal}"))?;
    if monitor.signals != rule.signals {
        return Err(format!("the table has {} signals", monitor.signals));
    }
    if monitor.possible() != rule.possible() {
        return Err(format!("the table has the events of mask {}", monitor.possible()));
    }
    let access = access_lists(&monitor)?;
    let telling = Telling::of(&monitor)?;
    let mut check =
        Check { monitor: &monitor, access: &access, search: Search::new(rule, bounds), bounds };
    check.verdicts()?;
    check.moot_states()?;
    check.undecided_states()?;
    check.states_are_told_apart(&telling)?;
    check.successors(&telling)?;
    Ok(check.report())
}

/// The first list with which a breadth-first walk, events ascending, meets each
/// state. An error if the states are not numbered in the order of the walk.
fn access_lists(monitor: &Monitor) -> Result<Vec<Vec<u8>>, String> {
    let mut lists = vec![Vec::new()];
    let mut state = 0;
    while state < lists.len() {
        for (event, successor) in monitor.states[state].steps() {
            if successor > lists.len() {
                return Err(format!(
                    "state {successor} is met where state {} is due, from state {state} on {event}",
                    lists.len()
                ));
            }
            if successor == lists.len() {
                lists.push([&lists[state][..], &[event]].concat());
            }
        }
        state += 1;
    }
    match monitor.states.len() - lists.len() {
        0 => Ok(lists),
        _ => Err(format!("state {} is never met", lists.len())),
    }
}

struct Check<'a> {
    monitor: &'a Monitor,
    access: &'a [Vec<u8>],
    search: Search<'a>,
    bounds: Bounds,
}

impl Check<'_> {
    /// At each access list, the search agrees with the state's verdict.
    fn verdicts(&mut self) -> Result<(), String> {
        (0..self.access.len()).try_for_each(|state| self.confirm(state, &[], state))
    }

    /// A moot state stays where it is, and no further list is decided.
    fn moot_states(&mut self) -> Result<(), String> {
        let events: Vec<u8> = mask::events(self.monitor.possible()).collect();
        for state in self.states_with(Verdict::Moot) {
            let mut steps = self.monitor.states[state].steps();
            if let Some((_, other)) = steps.find(|&(_, other)| other != state) {
                return Err(format!("moot state {state} leads to state {other}"));
            }
            for length in 1..=moot_depth(events.len()) {
                for list in lists_over(&events, length) {
                    self.confirm(state, &list, state)?;
                }
            }
        }
        Ok(())
    }

    /// From an undecided state, the table's shortest way to a decided one is
    /// confirmed.
    fn undecided_states(&mut self) -> Result<(), String> {
        for state in self.states_with(Verdict::Undecided) {
            let Some(way) = self.way_to_a_verdict(state) else {
                return Err(format!("undecided state {state} leads to no decided one"));
            };
            let end = follow(self.monitor, state, &way);
            self.confirm(state, &way, end)?;
        }
        Ok(())
    }

    /// Every two states are told apart by a list; the search sees it as the
    /// table does.
    fn states_are_told_apart(&mut self, telling: &Telling) -> Result<(), String> {
        for first in 0..self.access.len() {
            for second in 0..first {
                let list = telling.list(self.monitor, first, second);
                for state in [first, second] {
                    self.confirm(state, &list, follow(self.monitor, state, &list))?;
                }
            }
        }
        Ok(())
    }

    /// Each successor is the right one: the event leads to the successor's
    /// verdict, also after each list that tells the successor from another state.
    fn successors(&mut self, telling: &Telling) -> Result<(), String> {
        let lists: Vec<Vec<Vec<u8>>> =
            (0..self.access.len()).map(|state| telling.lists(self.monitor, state)).collect();
        for state in 0..self.access.len() {
            for (event, successor) in self.monitor.states[state].steps() {
                self.confirm(state, &[event], successor)?;
                for list in &lists[successor] {
                    let further = [&[event], &list[..]].concat();
                    self.confirm(state, &further, follow(self.monitor, successor, list))?;
                }
            }
        }
        Ok(())
    }

    /// The list behind the access list of `state` leads to what `end` shows.
    fn confirm(&mut self, state: usize, list: &[u8], end: usize) -> Result<(), String> {
        let whole = [&self.access[state][..], list].concat();
        if whole.len() + self.bounds.longest() > POSITIONS {
            return Err(format!("the list {whole:?} is too long for the search"));
        }
        let verdict = self.monitor.states[end].verdict;
        disagreement(self.search.judge(&whole), Class::of(verdict))
            .map_or(Ok(()), |reason| Err(format!("after {whole:?}, shown as {verdict}: {reason}")))
    }

    fn states_with(&self, verdict: Verdict) -> Vec<usize> {
        let states = self.monitor.states.iter().enumerate();
        states.filter(|(_, state)| state.verdict == verdict).map(|(number, _)| number).collect()
    }

    /// A shortest list from a state to one that is satisfied or violated.
    fn way_to_a_verdict(&self, state: usize) -> Option<Vec<u8>> {
        let mut seen = vec![false; self.monitor.states.len()];
        let mut ways = vec![(state, Vec::new())];
        let mut next = 0;
        while next < ways.len() {
            let (state, way) = ways[next].clone();
            next += 1;
            if Class::of(self.monitor.states[state].verdict) != Class::Neither {
                return Some(way);
            }
            for (event, successor) in self.monitor.states[state].steps() {
                if !std::mem::replace(&mut seen[successor], true) {
                    ways.push((successor, [&way[..], &[event]].concat()));
                }
            }
        }
        None
    }

    fn report(&self) -> Report {
        let mut states = [0; 4];
        for state in &self.monitor.states {
            states[usize::from(state.verdict.to_byte())] += 1;
        }
        let judged = || self.search.judged();
        Report {
            events: self.monitor.possible().count_ones() as usize,
            states,
            lists: judged().count(),
            longest_list: judged().map(|(list, _)| list.len()).max().unwrap_or(0),
            longest_lasso: judged().map(|(_, judgement)| judgement.longest()).max().unwrap_or(0),
        }
    }
}

/// Why a judgement is not of the expected class. Where a lasso is missing, the
/// table may be wrong or the search may have run into its bounds.
fn disagreement(judgement: &Judgement, expected: Class) -> Option<String> {
    match (expected, &judgement.satisfying, &judgement.breaking) {
        (Class::Violated, Some(found), _) => Some(format!("a lasso satisfies it: {found}")),
        (Class::Satisfied, _, Some(found)) => Some(format!("a lasso breaks it: {found}")),
        (Class::Neither | Class::Satisfied, None, _) => {
            Some("no satisfying lasso within the bounds".to_string())
        }
        (Class::Neither | Class::Violated, _, None) => {
            Some("no breaking lasso within the bounds".to_string())
        }
        _ => None,
    }
}

fn follow(monitor: &Monitor, state: usize, list: &[u8]) -> usize {
    list.iter()
        .fold(state, |state, &event| monitor.states[state].successors[usize::from(event)].into())
}

/// Every list of this length over these events, in their order.
pub fn lists_over(events: &[u8], length: usize) -> Vec<Vec<u8>> {
    (0..length).fold(vec![Vec::new()], |lists, _| {
        let longer = |list: &Vec<u8>| -> Vec<Vec<u8>> {
            events.iter().map(|&event| [&list[..], &[event]].concat()).collect()
        };
        lists.iter().flat_map(longer).collect()
    })
}

/// How many of the lists leave different properties, as far as the given
/// continuations, in each of which the last event comes for ever, can tell. Those with
/// an event that cannot happen are passed over.
pub fn different_residuals(rule: &Rule, lists: &[Vec<u8>], continuations: &[Vec<u8>]) -> usize {
    let is_possible = |list: &&Vec<u8>| list.iter().all(|&event| mask::has(rule.possible(), event));
    let signature = |list: &Vec<u8>| -> Vec<bool> {
        let holds = |continuation: &Vec<u8>| {
            let trace = [&list[..], continuation].concat();
            satisfies(rule, &trace, trace.len() - 1)
        };
        continuations.iter().filter(is_possible).map(holds).collect()
    };
    lists.iter().filter(is_possible).map(signature).collect::<HashSet<_>>().len()
}

#[cfg(test)]
mod tests;
