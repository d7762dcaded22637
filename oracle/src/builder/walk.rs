//! The breadth-first walk over residual sets, events ascending.

use super::labels::{members, LabelSet, Labels};
use super::{EVENTS, STATES};
use crate::table::Verdict;

pub struct Walk {
    pub events: usize,
    pub count: usize,
    pub verdicts: [Verdict; STATES],
    pub successors: [[u8; EVENTS]; STATES],
}

impl Walk {
    /// None if there are more than 256 different sets.
    pub fn over(labels: &Labels) -> Option<Self> {
        let residuals = Residuals::of(labels);
        let mut walk = Walk {
            events: labels.events,
            count: 1,
            verdicts: [Verdict::Undecided; STATES],
            successors: [[0; EVENTS]; STATES],
        };
        let mut met = Met::new();
        if let Some(start) = residuals.start_set {
            met.number_of(start)?;
        } else {
            met.count = 1;
        }
        walk.verdicts[0] = residuals.start_verdict;
        let mut state = 0;
        while state < met.count {
            for event in 0..walk.events {
                let set = match state {
                    0 => residuals.first[event],
                    _ => residuals.after(met.sets[state], event),
                };
                let successor = met.number_of(set)?;
                walk.successors[state][event] = successor;
                walk.verdicts[usize::from(successor)] = residuals.verdict(set);
            }
            state += 1;
        }
        walk.count = met.count;
        Some(walk)
    }
}

/// The sets met so far, numbered in the order of their first meeting.
struct Met {
    count: usize,
    sets: [LabelSet; STATES],
    /// An open hash table of numbers.
    slots: [u16; SLOTS],
}

const SLOTS: usize = 1024;
const EMPTY: u16 = u16::MAX;

impl Met {
    fn new() -> Self {
        Met { count: 0, sets: [0; STATES], slots: [EMPTY; SLOTS] }
    }

    /// None if the set would be the 257th.
    fn number_of(&mut self, set: LabelSet) -> Option<u8> {
        let mut slot = hash(set);
        loop {
            let number = self.slots[slot];
            if number == EMPTY {
                break;
            }
            if self.sets[usize::from(number)] == set {
                return Some(number as u8);
            }
            slot = (slot + 1) % SLOTS;
        }
        *self.sets.get_mut(self.count)? = set;
        self.slots[slot] = self.count as u16;
        self.count += 1;
        Some((self.count - 1) as u8)
    }
}

/// A slot for a set.
fn hash(set: LabelSet) -> usize {
    let folded = (set as u64) ^ ((set >> 64) as u64).rotate_left(23);
    (folded.wrapping_mul(0x9e37_79b9_7f4a_7c15) >> 54) as usize
}

/// The residual sets of a rule. The realizable labels are numbered anew from
/// 0, so that a set has as few bits as can be.
///
/// Before the first event the residual property depends on the truth of the
/// rule at the position itself, which the label need not tell. If it does, the
/// start is a set of labels like any other; if not, it differs from them all.
struct Residuals {
    all: LabelSet,
    start_set: Option<LabelSet>,
    start_verdict: Verdict,
    /// By event: the set after that event alone.
    first: [LabelSet; EVENTS],
    nibbles: usize,
    /// By event and place of a nibble: the labels that the event leads from
    /// into the part of a set that the nibble holds.
    steps: Vec<[LabelSet; 16]>,
}

impl Residuals {
    fn of(labels: &Labels) -> Self {
        let realizable = labels.realizable();
        let size = realizable.count_ones();
        let mut residuals = Residuals {
            all: LabelSet::MAX >> (LabelSet::BITS - size),
            start_set: None,
            start_verdict: Verdict::Undecided,
            first: [0; EVENTS],
            nibbles: size.div_ceil(4) as usize,
            steps: Vec::with_capacity(labels.events * size.div_ceil(4) as usize),
        };
        let (mut with_rule, mut without_rule) = (0, 0);
        for event in 0..labels.events {
            let mut sources = [0; LabelSet::BITS as usize];
            for (number, label) in members(realizable).enumerate() {
                let before = labels.before[event][label];
                let rank = rank_of(before, realizable);
                sources[rank] |= 1 << number;
                let holds = labels.holds[event] >> label & 1;
                residuals.first[event] |= holds << number;
                with_rule |= holds << rank;
                without_rule |= (1 - holds) << rank;
            }
            residuals.add_steps(&sources);
        }
        residuals.start(with_rule, without_rule);
        residuals
    }

    /// Combines the sources of four labels each.
    fn add_steps(&mut self, sources: &[LabelSet; LabelSet::BITS as usize]) {
        for four in sources.chunks_exact(4).take(self.nibbles) {
            let mut step = [0; 16];
            for nibble in 1..16usize {
                let lowest = nibble.trailing_zeros() as usize;
                step[nibble] = step[nibble & (nibble - 1)] | four[lowest];
            }
            self.steps.push(step);
        }
    }

    /// From the labels with which the rule can be true, and false.
    fn start(&mut self, with_rule: LabelSet, without_rule: LabelSet) {
        if with_rule & without_rule == 0 {
            self.start_set = Some(with_rule);
            self.start_verdict = self.verdict(with_rule);
        }
    }

    /// The set one event after a set.
    fn after(&self, set: LabelSet, event: usize) -> LabelSet {
        let steps = &self.steps[event * self.nibbles..(event + 1) * self.nibbles];
        let mut rest = set;
        let mut after = 0;
        for step in steps {
            after |= step[(rest & 15) as usize];
            rest >>= 4;
        }
        after
    }

    /// Decided or not; that nothing can decide any more is found by grouping.
    fn verdict(&self, set: LabelSet) -> Verdict {
        if set == 0 {
            Verdict::Violated
        } else if set == self.all {
            Verdict::Satisfied
        } else {
            Verdict::Undecided
        }
    }
}

/// How many members of a set are below a number.
fn rank_of(number: u8, set: LabelSet) -> usize {
    (set & ((1 << number) - 1)).count_ones() as usize
}

#[cfg(test)]
mod tests {
    use super::*;
    use crate::rule::{kind, Rule};
    use crate::vectors::mask_samples::{APART_OF_THREE, NOT_ALONE, WITHOUT_Q};
    use crate::vectors::rule_samples::{edge_rules, one_too_many, one_too_many_merged};
    use crate::vectors::rule_samples::{nexts, p3, p9, rule, shared_nexts, P, Q};

    fn residual_count(rule: &Rule) -> Option<usize> {
        Walk::over(&Labels::of(rule)).map(|walk| walk.count)
    }

    #[test]
    fn remaining_properties_are_counted_once_each() {
        assert_eq!(residual_count(&p3()), Some(3));
        assert_eq!(residual_count(&p9()), Some(3));
        assert_eq!(residual_count(&nexts(7)), Some(10));
        assert_eq!(residual_count(&shared_nexts(5)), Some(244));
        assert_eq!(residual_count(&shared_nexts(6)), None);
        let at_the_edge: Vec<_> = edge_rules().iter().map(residual_count).collect();
        assert_eq!(at_the_edge, [Some(256), Some(256), None, None]);
        let without = |rule: Rule, mask| residual_count(&rule.with_mask(mask));
        assert_eq!(without(one_too_many(), NOT_ALONE), Some(256));
        assert_eq!(without(one_too_many_merged(), NOT_ALONE), Some(256));
        assert_eq!(without(shared_nexts(6), WITHOUT_Q), Some(65));
        assert_eq!(without(shared_nexts(6), APART_OF_THREE), None);
        let infinitely_often = [P, (kind::EVENTUALLY, 0, 0), (kind::ALWAYS, 1, 0)];
        assert_eq!(residual_count(&rule(1, &infinitely_often)), Some(1));
    }

    /// (p and always eventually q) or (not p and eventually always q)
    #[test]
    fn a_moot_rule_may_have_three_remaining_properties() {
        let first = [P, Q, (kind::EVENTUALLY, 1, 0), (kind::ALWAYS, 2, 0), (kind::AND, 0, 3)];
        let second = [(kind::NOT, 0, 0), (kind::ALWAYS, 1, 0), (kind::EVENTUALLY, 6, 0)];
        let either = [(kind::AND, 5, 7), (kind::OR, 4, 8)];
        let nodes = [&first[..], &second, &either].concat();
        assert_eq!(residual_count(&rule(2, &nodes)), Some(3));
    }
}
