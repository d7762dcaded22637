//! Labels of positions, and which of them some trace has.
//!
//! A label has one bit for each temporal node: for `next a` the truth of a at
//! the position, for the others the truth of the node itself. A set of labels
//! is one machine word, and the nodes are evaluated for all labels at once.

use super::EVENTS;
use crate::mask;
use crate::rule::{kind, temporal_count, FormulaNode, Rule};

/// The most labels: seven temporal nodes.
const LABELS: usize = 128;
/// The most nodes of a rule.
const NODES: usize = 64;

/// A set of labels, one bit for each.
pub type LabelSet = u128;

pub struct Labels {
    /// How many events can happen. They are numbered anew from 0, ascending.
    pub events: usize,
    /// How many labels there are, realizable or not.
    pub count: usize,
    /// By event and label of the next position: the label of the position.
    pub before: [[u8; LABELS]; EVENTS],
    /// By event: the labels of the next position with which the rule holds.
    pub holds: [LabelSet; EVENTS],
    /// By event and label of the next position: the temporal nodes that
    /// postpone nothing there.
    fair: [[u8; LABELS]; EVENTS],
}

impl Labels {
    pub fn of(rule: &Rule) -> Self {
        let mut labels = Labels {
            events: rule.possible().count_ones() as usize,
            count: 1 << temporal_count(&rule.nodes),
            before: [[0; LABELS]; EVENTS],
            holds: [0; EVENTS],
            fair: [[0; LABELS]; EVENTS],
        };
        for (number, event) in mask::events(rule.possible()).enumerate() {
            labels.evaluate(&rule.nodes, number, event);
        }
        labels
    }

    /// All nodes at a position with this event, for every label of the next.
    fn evaluate(&mut self, nodes: &[FormulaNode], event_number: usize, event: u8) {
        let mut truth = [0; NODES];
        let mut bit = 0;
        for (number, &node) in nodes.iter().enumerate() {
            let a = truth[usize::from(node.first) % NODES];
            let b = truth[usize::from(node.second) % NODES];
            if !node.is_temporal() {
                truth[number] = propositional(node, event, a, b);
                continue;
            }
            let value = temporal(node.kind, a, b, HAVING[bit]);
            truth[number] = value;
            let (obligation, fair) = match node.kind {
                kind::NEXT => (a, LabelSet::MAX),
                kind::UNTIL => (value, !value | b),
                kind::EVENTUALLY => (value, !value | a),
                _ => (value, value | !a),
            };
            add_column(&mut self.before[event_number], self.count, obligation, bit);
            add_column(&mut self.fair[event_number], self.count, fair, bit);
            bit += 1;
        }
        self.holds[event_number] = truth[nodes.len() - 1];
    }

    /// The labels that some trace has: those that lead to a strongly connected
    /// part with an edge, in which each temporal node is somewhere fair.
    pub fn realizable(&self) -> LabelSet {
        let graph = Graph::of(self);
        let mut realizable = 0;
        let mut left = LabelSet::MAX >> (LABELS - self.count);
        while left != 0 {
            let pivot = left & left.wrapping_neg();
            let part = graph.later(pivot, left) & graph.earlier(pivot, left);
            if self.is_fair(part) {
                realizable |= graph.earlier(part, LabelSet::MAX);
            }
            left &= !(part | realizable);
        }
        realizable
    }

    /// Whether the part has an inner edge and each temporal node is fair on one.
    fn is_fair(&self, part: LabelSet) -> bool {
        let mut has_edge = false;
        let mut met = 0;
        for event in 0..self.events {
            for label in members(part) {
                if part >> self.before[event][label] & 1 != 0 {
                    has_edge = true;
                    met |= self.fair[event][label];
                }
            }
        }
        has_edge && usize::from(met) == self.count - 1
    }
}

/// The edges between labels, forward in time and back.
struct Graph {
    successors: [LabelSet; LABELS],
    predecessors: [LabelSet; LABELS],
}

impl Graph {
    fn of(labels: &Labels) -> Self {
        let mut graph = Graph { successors: [0; LABELS], predecessors: [0; LABELS] };
        for row in &labels.before[..labels.events] {
            for (later, &earlier) in row[..labels.count].iter().enumerate() {
                graph.predecessors[later] |= 1 << earlier;
                graph.successors[usize::from(earlier)] |= 1 << later;
            }
        }
        graph
    }

    /// What `from` leads to, itself included, within a set.
    fn later(&self, from: LabelSet, within: LabelSet) -> LabelSet {
        closure(&self.successors, from, within)
    }

    /// What leads to `from`, itself included, within a set.
    fn earlier(&self, from: LabelSet, within: LabelSet) -> LabelSet {
        closure(&self.predecessors, from, within)
    }
}

fn closure(edges: &[LabelSet; LABELS], from: LabelSet, within: LabelSet) -> LabelSet {
    let mut reached = from;
    let mut fresh = from;
    while fresh != 0 {
        let label = fresh.trailing_zeros() as usize;
        fresh &= fresh - 1;
        fresh |= edges[label] & within & !reached;
        reached |= fresh;
    }
    reached
}

/// The numbers in a set, ascending.
pub fn members(mut set: LabelSet) -> impl Iterator<Item = usize> {
    std::iter::from_fn(move || {
        let lowest = set.trailing_zeros() as usize;
        (set != 0).then(|| {
            set &= set - 1;
            lowest
        })
    })
}

fn propositional(node: FormulaNode, event: u8, a: LabelSet, b: LabelSet) -> LabelSet {
    let all_if = |condition| if condition { LabelSet::MAX } else { 0 };
    match node.kind {
        kind::FALSE => 0,
        kind::TRUE => LabelSet::MAX,
        kind::SIGNAL => all_if(event >> node.first & 1 != 0),
        kind::AT_LEAST => {
            let on = (event & node.first).count_ones() as u8;
            all_if(node.second <= on && on <= node.upper())
        }
        kind::NOT => !a,
        kind::AND => a & b,
        kind::OR => a | b,
        kind::IMPLIES => !a | b,
        kind::EQUALS => !(a ^ b),
        _ => a ^ b,
    }
}

/// A temporal node, from its operands here and its own bit one position later.
fn temporal(kind: u8, a: LabelSet, b: LabelSet, later: LabelSet) -> LabelSet {
    match kind {
        kind::NEXT => later,
        kind::UNTIL => b | (a & later),
        kind::EVENTUALLY => a | later,
        _ => a & later,
    }
}

/// By bit: the labels that have it.
const HAVING: [LabelSet; 7] = {
    let mut having = [0; 7];
    let mut label = 0;
    while label < LABELS {
        let mut bit = 0;
        while bit < 7 {
            having[bit] |= ((label >> bit & 1) as LabelSet) << label;
            bit += 1;
        }
        label += 1;
    }
    having
};

/// Byte i of `SPREAD[b]` is bit i of b.
const SPREAD: [u64; 256] = {
    let mut spread = [0; 256];
    let mut byte = 0;
    while byte < 256 {
        let mut bit = 0;
        while bit < 8 {
            spread[byte] |= ((byte >> bit & 1) as u64) << (8 * bit);
            bit += 1;
        }
        byte += 1;
    }
    spread
};

/// Sets a bit of each byte of the row whose number is in the set; eight at once.
fn add_column(row: &mut [u8; LABELS], count: usize, set: LabelSet, bit: usize) {
    let eights = row.as_chunks_mut::<8>().0.iter_mut().zip(set.to_le_bytes());
    for (eight, byte) in eights.take(count.div_ceil(8)) {
        *eight = (u64::from_le_bytes(*eight) | SPREAD[usize::from(byte)] << bit).to_le_bytes();
    }
}

#[cfg(test)]
mod tests {
    use super::*;
    use crate::vectors::rule_samples::COUNT_COLUMNS;

    #[test]
    fn at_least_counts_the_signals_of_the_mask() {
        for (node, column) in COUNT_COLUMNS {
            let found = [0, 1, 2, 3].map(|event| propositional(node, event, 0, 0));
            assert_eq!(found, column.map(|bit| LabelSet::MAX * bit as LabelSet), "{node}");
        }
    }
}
