//! Good rules: those of document 01, those at the limits, those with counts between two
//! bounds, those at the edge of 256 remaining properties, and random ones.

use crate::random_rules::any_count;
use crate::rng::Rng;
use crate::rule::{kind, temporal_count, BodyShape, FormulaNode, Rule};
use crate::rule::{NODE_LIMIT, TEMPORAL_LIMIT};

const TEMPORAL_KINDS: [u8; 4] = [kind::NEXT, kind::UNTIL, kind::EVENTUALLY, kind::ALWAYS];

/// A node as kind, first and second body byte.
pub type NodeBytes = (u8, u8, u8);

impl From<NodeBytes> for FormulaNode {
    fn from((kind, first, second): NodeBytes) -> Self {
        FormulaNode::new(kind, first, second)
    }
}

pub const P: NodeBytes = (kind::SIGNAL, 0, 0);
pub const Q: NodeBytes = (kind::SIGNAL, 1, 0);

pub fn rule(signals: u8, nodes: &[impl Into<FormulaNode> + Copy]) -> Rule {
    Rule::new(signals, nodes.iter().map(|&node| node.into()).collect())
}

pub fn p3() -> Rule {
    rule(1, &[P])
}

pub fn p9() -> Rule {
    rule(2, &[P, Q, (kind::UNTIL, 0, 1)])
}

/// always (p implies next (not p until q))
pub fn p12() -> Rule {
    let until = [P, Q, (kind::NOT, 0, 0), (kind::UNTIL, 2, 1)];
    let always = [(kind::NEXT, 3, 0), (kind::IMPLIES, 0, 4), (kind::ALWAYS, 5, 0)];
    rule(2, &[until.as_slice(), &always].concat())
}

/// The other rules with a name in document 01.
fn named_rules() -> Vec<Rule> {
    vec![
        rule(1, &[(kind::TRUE, 0, 0)]),
        rule(1, &[(kind::FALSE, 0, 0)]),
        rule(1, &[P, (kind::ALWAYS, 0, 0)]),
        rule(1, &[P, (kind::EVENTUALLY, 0, 0)]),
        rule(1, &[P, (kind::EVENTUALLY, 0, 0), (kind::ALWAYS, 1, 0)]),
        rule(1, &[P, (kind::ALWAYS, 0, 0), (kind::EVENTUALLY, 1, 0)]),
        rule(1, &[P, (kind::NOT, 0, 0), (kind::NEXT, 0, 0), (kind::NEXT, 1, 0), (kind::OR, 2, 3)]),
        rule(2, &[P, Q, (kind::OR, 0, 1), (kind::ALWAYS, 2, 0)]),
        rule(2, &[P, Q, (kind::UNTIL, 0, 1), (kind::ALWAYS, 2, 0)]),
        rule(2, &[P, Q, (kind::EVENTUALLY, 0, 0), (kind::ALWAYS, 2, 0), (kind::AND, 1, 3)]),
    ]
}

/// `count` nexts, one over the other, over signal 0.
pub fn nexts(count: u8) -> Rule {
    let mut nodes = vec![P];
    nodes.extend((0..count).map(|below| (kind::NEXT, below, 0)));
    rule(1, &nodes)
}

/// always ((p implies M) and (q implies not M)), M being nexts over signal 2
pub fn shared_nexts(count: u8) -> Rule {
    let mut nodes = vec![P, Q, (kind::SIGNAL, 2, 0)];
    nodes.extend((0..count).map(|below| (kind::NEXT, below + 2, 0)));
    let inner = count + 2;
    nodes.extend([
        (kind::NOT, inner, 0),
        (kind::IMPLIES, 0, inner),
        (kind::IMPLIES, 1, inner + 1),
        (kind::AND, inner + 2, inner + 3),
        (kind::ALWAYS, inner + 4, 0),
    ]);
    rule(3, &nodes)
}

pub fn document_rules() -> Vec<Rule> {
    let mut rules = vec![p3(), p9(), p12(), nexts(7), shared_nexts(5), shared_nexts(6)];
    rules.extend(named_rules());
    rules
}

/// Each of the fourteen kinds once, each operand the node just before.
pub fn all_kinds() -> Rule {
    let nodes: Vec<NodeBytes> = (kind::FALSE..=kind::ALWAYS)
        .map(|kind| match kind {
            kind::FALSE | kind::TRUE => (kind, 0, 0),
            kind::SIGNAL => (kind, 2, 0),
            kind::AT_LEAST => (kind, 7, 2),
            kind::AND..=kind::EXCLUSIVE_OR | kind::UNTIL => (kind, kind - 2, kind - 1),
            _ => (kind, kind - 1, 0),
        })
        .collect();
    rule(3, &nodes)
}

/// A rule with the most nodes and the most temporal nodes.
pub fn largest(rng: &mut Rng) -> Rule {
    random_rule_of(rng, 4, NODE_LIMIT.into(), TEMPORAL_LIMIT)
}

/// Rules whose body bytes are just within their bounds.
pub fn limit_rules() -> Vec<Rule> {
    let mut rules = vec![nexts(6), nexts(7), all_kinds()];
    for signals in 1..=4 {
        let full_mask = (1 << signals) - 1;
        rules.push(rule(signals, &[(kind::SIGNAL, signals - 1, 0)]));
        for count in 0..=4 {
            rules.push(rule(signals, &[(kind::AT_LEAST, full_mask, count)]));
            rules.push(rule(signals, &[(kind::AT_LEAST, 0, count)]));
        }
        rules.push(rule(signals, &[P; NODE_LIMIT as usize]));
    }
    for kind in kind::NOT..=kind::ALWAYS {
        let shape = FormulaNode::new(kind, 0, 0).shape();
        let second = u8::from(shape == BodyShape::TwoOperands);
        rules.push(rule(1, &[P, P, (kind, 1, second)]));
    }
    for kind in TEMPORAL_KINDS {
        let second = if kind == kind::UNTIL { 6 } else { 0 };
        let mut nodes = vec![P; 7];
        nodes.extend([(kind, 6, second); TEMPORAL_LIMIT]);
        rules.push(rule(1, &nodes));
    }
    rules
}

/// always exactly one of p and q: document 02's pair of limit switches
pub fn flap_pair() -> Rule {
    always(2, FormulaNode::between(3, 1, 1))
}

pub fn always(signals: u8, node: FormulaNode) -> Rule {
    rule(signals, &[node, FormulaNode::new(kind::ALWAYS, 0, 0)])
}

/// always (one or two of four signals implies next (two or three until none))
pub fn counted_until() -> Rule {
    let counts =
        [(1, 2), (2, 3), (0, 0)].map(|(least, most)| FormulaNode::between(15, least, most));
    let operators =
        [(kind::UNTIL, 1, 2), (kind::NEXT, 3, 0), (kind::IMPLIES, 0, 4), (kind::ALWAYS, 5, 0)];
    rule(4, &[counts.as_slice(), &operators.map(FormulaNode::from)].concat())
}

/// Three counts, each with a third byte where its bit of `order` is set, in front of nodes that
/// use them: a reader that steps by one length for all of them loses its place.
pub fn mixed_counts(order: u8) -> Rule {
    let counts = [0, 1, 2].map(|place| match order >> place & 1 {
        0 => FormulaNode::new(kind::AT_LEAST, 3, 1 + place % 2),
        _ => FormulaNode::between(3, place % 2, 1),
    });
    let operators =
        [(kind::NOT, 2, 0), (kind::UNTIL, 0, 1), (kind::OR, 3, 4), (kind::ALWAYS, 5, 0)];
    rule(2, &[counts.as_slice(), &operators.map(FormulaNode::from)].concat())
}

/// The longest file: as many nodes as there may be, all of them counts with a third byte.
pub fn longest_file() -> Rule {
    let count = |number| FormulaNode::between(number % 16, number % 5, number / 7 % 5);
    Rule::new(4, (0..NODE_LIMIT).map(count).collect())
}

/// Every lower with every upper count, over this mask.
fn all_bounds(mask: u8) -> impl Iterator<Item = FormulaNode> {
    (0..25).map(move |pair| FormulaNode::between(mask, pair / 5, pair % 5))
}

/// Rules with counts between two bounds. Those of one node count all signals, or none.
pub fn count_rules() -> Vec<Rule> {
    let mut rules = vec![flap_pair(), counted_until(), longest_file()];
    rules.extend((0..8).map(mixed_counts));
    for signals in 1..=4 {
        let counts = all_bounds((1 << signals) - 1).chain(all_bounds(0));
        rules.extend(counts.map(|count| rule(signals, &[count])));
    }
    rules
}

/// Nodes of which each stands once, however often it is used.
#[derive(Default)]
struct SharedNodes {
    nodes: Vec<NodeBytes>,
}

impl SharedNodes {
    /// The number of the node, which is added unless it stands already.
    fn add(&mut self, kind: u8, first: u8, second: u8) -> u8 {
        let node = (kind, first, second);
        let number = self.nodes.iter().position(|&other| other == node);
        number.unwrap_or_else(|| {
            self.nodes.push(node);
            self.nodes.len() - 1
        }) as u8
    }

    fn signal(&mut self, signal: u8) -> u8 {
        self.add(kind::SIGNAL, signal, 0)
    }

    /// The signal is on where its bit of the number is set, and off where it is not.
    fn like_bit(&mut self, number: u8, signal: u8) -> u8 {
        let is_on = self.signal(signal);
        match number >> signal & 1 {
            0 => self.add(kind::NOT, is_on, 0),
            _ => is_on,
        }
    }

    /// Signals 0 to 2 show exactly this number.
    fn shows(&mut self, number: u8) -> u8 {
        let (first, second) = (self.like_bit(number, 0), self.like_bit(number, 1));
        let both = self.add(kind::AND, first, second);
        let third = self.like_bit(number, 2);
        self.add(kind::AND, both, third)
    }

    /// Signals 0 to 2 eventually show the number, for each number from 1 on.
    fn eventually_shows(&mut self, last: u8) -> Vec<u8> {
        let numbers = 1..=last;
        let due = numbers.map(|number| {
            let shows = self.shows(number);
            self.add(kind::EVENTUALLY, shows, 0)
        });
        due.collect()
    }

    /// Any of signals 0 to 2 is on.
    fn shows_any(&mut self) -> u8 {
        let (first, second, third) = (self.signal(0), self.signal(1), self.signal(2));
        let either = self.add(kind::OR, first, second);
        self.add(kind::OR, either, third)
    }

    /// Signals 0 to 2 show 7, and what is due comes for ever, which no event decides.
    fn undecidable(&mut self, due: u8) -> u8 {
        let seventh = self.shows(7);
        let for_ever = self.add(kind::ALWAYS, due, 0);
        self.add(kind::AND, seventh, for_ever)
    }

    /// The exclusive or of a node with others, over four signals.
    fn exclusive_or(mut self, first: u8, others: &[u8]) -> Rule {
        others.iter().fold(first, |whole, &other| self.add(kind::EXCLUSIVE_OR, whole, other));
        rule(4, &self.nodes)
    }
}

/// The exclusive or of (signal 3, and any of signals 0 to 2) and of "signals 0 to 2 eventually
/// show k", k from 1 to 7. Behind the first event it matters which of the seven have come, and
/// whether the first made the first term true, which it cannot where it shows 0: with the start,
/// 1 + 2 * 128 - 1 remaining properties, and as many states.
pub fn full_table() -> Rule {
    let mut nodes = SharedNodes::default();
    let due = nodes.eventually_shows(7);
    let any = nodes.shows_any();
    let fourth = nodes.signal(3);
    let first = nodes.add(kind::AND, fourth, any);
    nodes.exclusive_or(first, &due)
}

/// The same to 6, and (7, and always eventually 1): 2 * 64 - 1 remaining properties where the
/// first event does not show 7, and 2 * 64 where it does. Those are never decided, so they are
/// one state: with the start, 256 remaining properties and 129 states.
pub fn merged_states() -> Rule {
    let mut nodes = SharedNodes::default();
    let due = nodes.eventually_shows(6);
    let any = nodes.shows_any();
    let undecidable = nodes.undecidable(due[0]);
    let fourth = nodes.signal(3);
    let first = nodes.add(kind::AND, fourth, any);
    nodes.exclusive_or(first, &[&[undecidable], &due[..]].concat())
}

/// Like the full table, with signal 3 alone for the first term, which an event that shows 0 can
/// make true as well: 1 + 2 * 128 remaining properties.
pub fn one_too_many() -> Rule {
    let mut nodes = SharedNodes::default();
    let due = nodes.eventually_shows(7);
    let fourth = nodes.signal(3);
    nodes.exclusive_or(fourth, &due)
}

/// Like the merged states, with signal 3 alone for the first term: 1 + 2 * 64 + 2 * 64 remaining
/// properties, and they would be 130 states.
pub fn one_too_many_merged() -> Rule {
    let mut nodes = SharedNodes::default();
    let due = nodes.eventually_shows(6);
    let undecidable = nodes.undecidable(due[0]);
    let fourth = nodes.signal(3);
    nodes.exclusive_or(fourth, &[&[undecidable], &due[..]].concat())
}

/// The rules at the edge of 256 remaining properties.
pub fn edge_rules() -> Vec<Rule> {
    vec![full_table(), merged_states(), one_too_many(), one_too_many_merged()]
}

/// All of these that are not drawn; none has a mask.
pub fn known_rules() -> Vec<Rule> {
    [document_rules(), limit_rules(), count_rules(), edge_rules()].concat()
}

/// A good rule of any size.
pub fn random_rule(rng: &mut Rng) -> Rule {
    let signals = 1 + rng.byte_below(4);
    let node_count = rng.between(1, NODE_LIMIT.into());
    let temporal = rng.between(0, TEMPORAL_LIMIT);
    random_rule_of(rng, signals, node_count, temporal)
}

/// A good rule of at most `limit` nodes.
pub fn random_short_rule(rng: &mut Rng, limit: usize) -> Rule {
    let signals = 1 + rng.byte_below(4);
    let node_count = rng.between(1, limit);
    let temporal = rng.between(0, TEMPORAL_LIMIT);
    random_rule_of(rng, signals, node_count, temporal)
}

fn random_rule_of(rng: &mut Rng, signals: u8, node_count: usize, temporal: usize) -> Rule {
    Rule::new(signals, random_nodes(rng, signals, node_count, temporal))
}

/// Good nodes, of which `temporal` are temporal, or all but the first if
/// there are fewer.
pub fn random_nodes(rng: &mut Rng, signals: u8, count: usize, temporal: usize) -> Vec<FormulaNode> {
    let mut nodes = Vec::new();
    for number in 0..count {
        let still_due = temporal - temporal_count(&nodes);
        let takes_temporal = number > 0 && rng.below(count - number) < still_due;
        nodes.push(random_node(rng, signals, number, takes_temporal));
    }
    nodes
}

fn random_node(rng: &mut Rng, signals: u8, number: usize, temporal: bool) -> FormulaNode {
    let kind = match (temporal, number) {
        (true, _) => *rng.pick(&TEMPORAL_KINDS),
        (false, 0) => rng.byte_below(usize::from(kind::NOT)),
        (false, _) => rng.byte_below(usize::from(kind::NEXT)),
    };
    let (first, second) = match kind {
        kind::FALSE | kind::TRUE => (0, 0),
        kind::SIGNAL => (rng.byte_below(signals.into()), 0),
        kind::AT_LEAST => return any_count(rng, signals),
        kind::NOT | kind::NEXT | kind::EVENTUALLY | kind::ALWAYS => {
            (random_operand(rng, number), 0)
        }
        _ => (random_operand(rng, number), random_operand(rng, number)),
    };
    FormulaNode::new(kind, first, second)
}

/// An earlier node, often the one just before.
fn random_operand(rng: &mut Rng, number: usize) -> u8 {
    let nearest = if rng.chance(40) { number - 1 } else { 0 };
    rng.byte_below(number).max(nearest as u8)
}

/// Counts over two signals, and whether the events 0 to 3 meet them, by hand.
#[cfg(test)]
pub const COUNT_COLUMNS: [(FormulaNode, [u8; 4]); 28] = {
    use FormulaNode as Node;
    [
        (Node::new(kind::AT_LEAST, 3, 0), [1, 1, 1, 1]),
        (Node::new(kind::AT_LEAST, 0, 0), [1, 1, 1, 1]),
        (Node::new(kind::AT_LEAST, 3, 1), [0, 1, 1, 1]),
        (Node::new(kind::AT_LEAST, 3, 2), [0, 0, 0, 1]),
        (Node::new(kind::AT_LEAST, 2, 1), [0, 0, 1, 1]),
        (Node::new(kind::AT_LEAST, 3, 3), [0, 0, 0, 0]),
        // Exactly so many.
        (Node::between(3, 0, 0), [1, 0, 0, 0]),
        (Node::between(3, 1, 1), [0, 1, 1, 0]),
        (Node::between(3, 2, 2), [0, 0, 0, 1]),
        (Node::between(3, 3, 3), [0, 0, 0, 0]),
        // A lower count of 0 is not met by every event, if the upper count is low.
        (Node::between(3, 0, 1), [1, 1, 1, 0]),
        (Node::between(3, 0, 2), [1, 1, 1, 1]),
        (Node::between(3, 0, 4), [1, 1, 1, 1]),
        (Node::between(3, 1, 2), [0, 1, 1, 1]),
        (Node::between(3, 1, 4), [0, 1, 1, 1]),
        (Node::between(3, 3, 4), [0, 0, 0, 0]),
        // An upper count below the lower one.
        (Node::between(3, 1, 0), [0, 0, 0, 0]),
        (Node::between(3, 2, 1), [0, 0, 0, 0]),
        (Node::between(3, 4, 0), [0, 0, 0, 0]),
        // One signal in the mask, or none.
        (Node::between(1, 0, 0), [1, 0, 1, 0]),
        (Node::between(2, 0, 0), [1, 1, 0, 0]),
        (Node::between(1, 1, 1), [0, 1, 0, 1]),
        (Node::between(2, 1, 1), [0, 0, 1, 1]),
        (Node::between(2, 0, 1), [1, 1, 1, 1]),
        (Node::between(1, 2, 4), [0, 0, 0, 0]),
        (Node::between(0, 0, 0), [1, 1, 1, 1]),
        (Node::between(0, 0, 4), [1, 1, 1, 1]),
        (Node::between(0, 1, 1), [0, 0, 0, 0]),
    ]
};

#[cfg(test)]
mod tests {
    use super::*;

    #[test]
    fn every_good_rule_is_read_back() {
        let mut rng = Rng::new(11);
        let mut rules = known_rules();
        rules.push(largest(&mut rng));
        rules.extend((0..200).map(|_| random_rule(&mut rng)));
        for rule in rules {
            assert_eq!(Rule::read(&rule.to_bytes()), Ok(rule));
        }
    }

    #[test]
    fn random_nodes_hold_the_asked_number_of_temporal_ones() {
        let mut rng = Rng::new(12);
        for count in 8..40 {
            let nodes = random_nodes(&mut rng, 2, count, TEMPORAL_LIMIT);
            assert_eq!(temporal_count(&nodes), TEMPORAL_LIMIT);
        }
    }

    #[test]
    fn the_longest_file_has_454_bytes() {
        assert_eq!(longest_file().to_bytes().len(), 454);
    }

    #[test]
    fn the_rules_at_the_edge_are_those_of_the_examples() {
        let files: [&[u8]; 3] = [
            include_bytes!("../../../examples/full_table.rule"),
            include_bytes!("../../../examples/merged_states.rule"),
            include_bytes!("../../../examples/one_too_many.rule"),
        ];
        for (rule, file) in edge_rules().iter().zip(files) {
            assert_eq!(rule.to_bytes(), file, "{rule}");
        }
        assert_eq!(files.map(<[u8]>::len), [202, 208, 184]);
    }

    #[test]
    fn all_kinds_come_once() {
        let kinds: Vec<u8> = all_kinds().nodes.iter().map(|node| node.kind).collect();
        assert_eq!(kinds, (0..14).collect::<Vec<u8>>());
    }
}
