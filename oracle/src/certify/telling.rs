//! Lists of events that tell the states of a table apart.

use std::collections::BTreeSet;

use super::follow;
use crate::search::Class;
use crate::table::Monitor;

/// How two states are told apart.
#[derive(Clone, Copy, PartialEq, Eq)]
enum Step {
    /// Not at all, as far as is known.
    Unknown,
    /// They show it themselves.
    Shown,
    /// Their successors on this event are told apart.
    After(u8),
}

/// For every two states a shortest list after which one is decided and the
/// other not, or decided otherwise.
pub struct Telling {
    steps: Vec<Vec<Step>>,
}

impl Telling {
    /// An error if two states show the same after every list.
    pub fn of(monitor: &Monitor) -> Result<Self, String> {
        let class = |state: usize| Class::of(monitor.states[state].verdict);
        let count = monitor.states.len();
        let shown = |first, second| match class(first) == class(second) {
            true => Step::Unknown,
            false => Step::Shown,
        };
        let row = |first| (0..count).map(|second| shown(first, second)).collect();
        let mut telling = Telling { steps: (0..count).map(row).collect() };
        while telling.look_one_event_further(monitor) {}
        let unknown =
            |&(first, second): &(usize, usize)| telling.steps[first][second] == Step::Unknown;
        let mut pairs = (0..count).flat_map(|second| (0..second).map(move |first| (first, second)));
        match pairs.find(unknown) {
            None => Ok(telling),
            Some((first, second)) => {
                Err(format!("no list tells state {first} and state {second} apart"))
            }
        }
    }

    /// Whether more pairs are told apart than before.
    fn look_one_event_further(&mut self, monitor: &Monitor) -> bool {
        let known = self.steps.clone();
        let is_known = |first: usize, second: usize| known[first][second] != Step::Unknown;
        let mut has_grown = false;
        for (first, row) in self.steps.iter_mut().enumerate() {
            for (second, step) in row.iter_mut().enumerate() {
                if *step != Step::Unknown {
                    continue;
                }
                let mut both = monitor.states[first].steps().zip(monitor.states[second].steps());
                if let Some(((event, _), _)) = both.find(|&((_, a), (_, b))| is_known(a, b)) {
                    *step = Step::After(event);
                    has_grown = true;
                }
            }
        }
        has_grown
    }

    /// The list that tells two different states apart.
    pub fn list(&self, monitor: &Monitor, first: usize, second: usize) -> Vec<u8> {
        let mut list = Vec::new();
        let (mut first, mut second) = (first, second);
        while let Step::After(event) = self.steps[first][second] {
            list.push(event);
            first = follow(monitor, first, &[event]);
            second = follow(monitor, second, &[event]);
        }
        list
    }

    /// The lists that tell a state from each of the others.
    pub fn lists(&self, monitor: &Monitor, state: usize) -> Vec<Vec<u8>> {
        let others = (0..self.steps.len()).filter(|&other| other != state);
        let lists: BTreeSet<Vec<u8>> =
            others.map(|other| self.list(monitor, state, other)).collect();
        lists.into_iter().collect()
    }
}
