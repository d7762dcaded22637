//! The search for traces: given a rule and a list of events, grows stem and
//! loop until one lasso behind the list satisfies the rule and one breaks it.

use std::collections::HashMap;
use std::fmt;

use crate::lasso::{Evaluation, POSITIONS};
use crate::rule::Rule;
use crate::table::Verdict;

/// Which lassos are tried, by the length of stem and loop together. None has an event that
/// cannot happen.
#[derive(Clone, Copy, Debug, PartialEq, Eq)]
pub struct Bounds {
    /// Up to this length: every lasso.
    pub every: usize,
    /// Beyond that, up to this length: every lasso of the lowest event and one near it. Where
    /// all events can happen, that is every lasso in which only one signal is ever on.
    pub two_events: usize,
}

impl Bounds {
    pub fn of(rule: &Rule) -> Self {
        Self::over(rule.events().len())
    }

    /// The bounds where so many events can happen.
    pub fn over(events: usize) -> Self {
        match events {
            ..=2 => Bounds { every: 8, two_events: 8 },
            3 => Bounds { every: 6, two_events: 7 },
            4 | 5 => Bounds { every: 5, two_events: 7 },
            6..=8 => Bounds { every: 4, two_events: 6 },
            _ => Bounds { every: 3, two_events: 6 },
        }
    }

    /// The longest lasso tried.
    pub fn longest(self) -> usize {
        self.every.max(self.two_events)
    }
}

impl fmt::Display for Bounds {
    fn fmt(&self, out: &mut fmt::Formatter<'_>) -> fmt::Result {
        write!(out, "stem and loop up to {}", self.every)?;
        if self.two_events > self.every {
            write!(out, ", with two events only up to {}", self.two_events)?;
        }
        Ok(())
    }
}

/// A lasso that was found behind a list.
#[derive(Clone, Debug, PartialEq, Eq)]
pub struct Found {
    pub stem: Vec<u8>,
    pub turn: Vec<u8>,
}

impl Found {
    /// The length of stem and loop.
    pub fn length(&self) -> usize {
        self.stem.len() + self.turn.len()
    }
}

impl fmt::Display for Found {
    fn fmt(&self, out: &mut fmt::Formatter<'_>) -> fmt::Result {
        write!(out, "stem {:?} loop {:?}", self.stem, self.turn)
    }
}

/// What is to be said after a list of events, without looking further ahead:
/// undecided and moot are both neither.
#[derive(Clone, Copy, Debug, PartialEq, Eq)]
pub enum Class {
    Satisfied,
    Violated,
    Neither,
}

impl Class {
    pub fn of(verdict: Verdict) -> Self {
        match verdict {
            Verdict::Satisfied => Class::Satisfied,
            Verdict::Violated => Class::Violated,
            Verdict::Undecided | Verdict::Moot => Class::Neither,
        }
    }
}

/// The first lassos found behind a list, as short as any.
#[derive(Clone, Debug, Default, PartialEq, Eq)]
pub struct Judgement {
    pub satisfying: Option<Found>,
    pub breaking: Option<Found>,
}

impl Judgement {
    /// Every lasso does one or the other, so at least one was found.
    pub fn class(&self) -> Class {
        match (&self.satisfying, &self.breaking) {
            (Some(_), None) => Class::Satisfied,
            (None, _) => Class::Violated,
            (Some(_), Some(_)) => Class::Neither,
        }
    }

    fn is_complete(&self) -> bool {
        self.satisfying.is_some() && self.breaking.is_some()
    }

    /// The length of the longer of the two lassos.
    pub fn longest(&self) -> usize {
        let length = |found: &Option<Found>| found.as_ref().map_or(0, Found::length);
        length(&self.satisfying).max(length(&self.breaking))
    }
}

/// The judgements on one rule; each list is judged once.
pub struct Search<'a> {
    rule: &'a Rule,
    bounds: Bounds,
    judged: HashMap<Vec<u8>, Judgement>,
}

impl<'a> Search<'a> {
    pub fn new(rule: &'a Rule, bounds: Bounds) -> Self {
        Search { rule, bounds, judged: HashMap::new() }
    }

    pub fn judge(&mut self, list: &[u8]) -> &Judgement {
        if !self.judged.contains_key(list) {
            let judgement = Growth::behind(list, self.rule).run(self.bounds);
            self.judged.insert(list.to_vec(), judgement);
        }
        &self.judged[list]
    }

    /// Every list that was judged, with what was found.
    pub fn judged(&self) -> impl Iterator<Item = (&Vec<u8>, &Judgement)> {
        self.judged.iter()
    }
}

/// One search: the list, and behind it the stem and loop that are being tried.
struct Growth {
    /// Those that can happen, ascending.
    events: Vec<u8>,
    evaluation: Evaluation,
    list_length: usize,
    trace: [u8; POSITIONS],
    judgement: Judgement,
}

impl Growth {
    fn behind(list: &[u8], rule: &Rule) -> Self {
        let mut trace = [0; POSITIONS];
        trace[..list.len()].copy_from_slice(list);
        Growth {
            events: rule.events(),
            evaluation: Evaluation::of(rule),
            list_length: list.len(),
            trace,
            judgement: Judgement::default(),
        }
    }

    fn run(mut self, bounds: Bounds) -> Judgement {
        let events = std::mem::take(&mut self.events);
        for length in 1..=bounds.every {
            self.try_all(length, &events);
        }
        for length in bounds.every + 1..=bounds.two_events {
            for near in near_the_lowest(&events) {
                self.try_all(length, &[events[0], near]);
            }
        }
        self.judgement
    }

    /// Tries every stem and loop of this length together over these events.
    fn try_all(&mut self, length: usize, events: &[u8]) {
        let end = self.list_length + length;
        let mut choice = [0; POSITIONS];
        self.trace[self.list_length..end].fill(events[0]);
        while !self.judgement.is_complete() {
            self.try_splits(end);
            let mut place = end;
            loop {
                if place == self.list_length {
                    return;
                }
                place -= 1;
                choice[place] = (choice[place] + 1) % events.len();
                self.trace[place] = events[choice[place]];
                if choice[place] != 0 {
                    break;
                }
            }
        }
    }

    /// Tries each split of what stands behind the list into stem and loop. A
    /// stem that ends as its loop does is passed over: with the loop turned
    /// back by one event it is a shorter lasso, which was tried before.
    fn try_splits(&mut self, end: usize) {
        self.evaluation.read(&self.trace[..end]);
        for loop_start in self.list_length..end {
            if loop_start > self.list_length && self.trace[loop_start - 1] == self.trace[end - 1] {
                continue;
            }
            let slot = match self.evaluation.holds(loop_start) {
                true => &mut self.judgement.satisfying,
                false => &mut self.judgement.breaking,
            };
            if slot.is_none() {
                let stem = self.trace[self.list_length..loop_start].to_vec();
                let turn = self.trace[loop_start..end].to_vec();
                *slot = Some(Found { stem, turn });
            }
        }
    }
}

/// The events that differ from the lowest, so that no other differs from it in a part of the same
/// signals only.
fn near_the_lowest(events: &[u8]) -> Vec<u8> {
    let differs_by = |event: u8| event ^ events[0];
    let is_near = |&&event: &&u8| {
        let mut others = events[1..].iter().filter(|&&other| other != event);
        others.all(|&other| differs_by(other) & !differs_by(event) != 0)
    };
    events[1..].iter().filter(is_near).copied().collect()
}

#[cfg(test)]
mod tests {
    use super::*;
    use crate::rule::kind;
    use crate::vectors::rule_samples::{nexts, p3, p9, rule, shared_nexts, NodeBytes, P, Q};

    fn judgement(rule: &Rule, list: &[u8]) -> Judgement {
        Search::new(rule, Bounds::of(rule)).judge(list).clone()
    }

    fn class(signals: u8, nodes: &[NodeBytes], list: &[u8]) -> Class {
        judgement(&rule(signals, nodes), list).class()
    }

    #[test]
    fn finds_the_shortest_lassos() {
        let judged = judgement(&p3(), &[]);
        assert_eq!(judged.satisfying, Some(Found { stem: vec![], turn: vec![1] }));
        assert_eq!(judged.breaking, Some(Found { stem: vec![], turn: vec![0] }));
        let judged = judgement(&nexts(2), &[0, 0]);
        assert_eq!(judged.satisfying, Some(Found { stem: vec![], turn: vec![1] }));
        let pulse = [P, (kind::NEXT, 0, 0), (kind::NOT, 1, 0), (kind::AND, 0, 2)];
        let judged = judgement(&rule(1, &pulse), &[]);
        assert_eq!(judged.satisfying, Some(Found { stem: vec![], turn: vec![1, 0] }));
        assert_eq!(judged.longest(), 2);
    }

    #[test]
    fn judges_by_the_continuations() {
        assert_eq!(judgement(&p9(), &[]).class(), Class::Neither);
        assert_eq!(judgement(&p9(), &[1]).class(), Class::Neither);
        assert_eq!(judgement(&p9(), &[1, 0]).class(), Class::Violated);
        assert_eq!(judgement(&p9(), &[1, 2]).class(), Class::Satisfied);
    }

    #[test]
    fn judges_meaning_and_not_form() {
        let next_or_not =
            [P, (kind::NOT, 0, 0), (kind::NEXT, 0, 0), (kind::NEXT, 1, 0), (kind::OR, 2, 3)];
        assert_eq!(class(1, &next_or_not, &[]), Class::Satisfied);
        let postponed =
            [P, Q, (kind::UNTIL, 0, 1), (kind::NOT, 1, 0), (kind::ALWAYS, 3, 0), (kind::AND, 2, 4)];
        assert_eq!(class(2, &postponed, &[]), Class::Violated);
    }

    #[test]
    fn tries_both_families_up_to_their_bounds() {
        let late = shared_nexts(5);
        let length = |every, two_events| {
            let bounds = Bounds { every, two_events };
            let mut search = Search::new(&late, bounds);
            search.judge(&[1, 1, 1, 1, 2]).satisfying.as_ref().map(Found::length)
        };
        assert_eq!(length(3, 5), Some(5));
        assert_eq!(length(3, 4), None);
        assert_eq!(length(5, 0), Some(5));
        assert_eq!(length(4, 0), None);
    }

    #[test]
    fn near_the_lowest_are_those_that_differ_in_the_fewest_signals() {
        assert_eq!(near_the_lowest(&(0..16).collect::<Vec<_>>()), [1, 2, 4, 8]);
        assert_eq!(near_the_lowest(&[0, 1, 2]), [1, 2]);
        assert_eq!(near_the_lowest(&[0, 3, 5, 7]), [3, 5]);
        assert_eq!(near_the_lowest(&[1, 2, 3]), [3]);
        assert_eq!(near_the_lowest(&[1, 2, 4]), [2, 4]);
        assert_eq!(near_the_lowest(&[6]), []);
    }

    #[test]
    fn judges_by_possible_events_only() {
        // always (p implies next (p and q)), always not (p and q), p until q
        let due = [P, Q, (kind::AND, 0, 1), (kind::NEXT, 2, 0), (kind::IMPLIES, 0, 3)];
        let due = rule(2, &[&due[..], &[(kind::ALWAYS, 4, 0)]].concat());
        let apart = rule(2, &[P, Q, (kind::AND, 0, 1), (kind::NOT, 2, 0), (kind::ALWAYS, 3, 0)]);
        let class =
            |rule: &Rule, mask, list| judgement(&rule.clone().with_mask(mask), list).class();
        assert_eq!(class(&due, 15, &[1]), Class::Neither);
        assert_eq!(class(&due, 7, &[1]), Class::Violated);
        assert_eq!(class(&due, 7, &[]), Class::Neither);
        assert_eq!(class(&apart, 15, &[]), Class::Neither);
        assert_eq!(class(&apart, 7, &[]), Class::Satisfied);
        assert_eq!(class(&p9(), 0b0010, &[]), Class::Violated);
        assert_eq!(class(&p9(), 0b0110, &[]), Class::Neither);
        assert_eq!(class(&p9(), 0b1100, &[]), Class::Satisfied);
    }

    #[test]
    fn every_lasso_found_is_of_possible_events() {
        let seventh = nexts(7);
        let judged = judgement(&Rule { signals: 2, ..seventh }.with_mask(0b1100), &[2]);
        let events = |found: Option<Found>| {
            let Found { stem, turn } = found.unwrap();
            [stem, turn].concat()
        };
        assert!(events(judged.satisfying).iter().all(|event| [2, 3].contains(event)));
        assert!(events(judged.breaking).iter().all(|event| [2, 3].contains(event)));
    }

    #[test]
    fn each_list_is_judged_once() {
        let rule = p9();
        let mut search = Search::new(&rule, Bounds::of(&rule));
        let first = search.judge(&[1]).clone();
        assert_eq!(search.judge(&[1]), &first);
        assert_eq!(search.judged().count(), 1);
    }
}
