//! Rules drawn to a plan, for what rules drawn freely hardly ever have.

use oracle::random_rules::likely_count;
use oracle::rng::Rng;
use oracle::rule::{kind, FormulaNode, Rule};

const BINARY: [u8; 7] =
    [kind::AND, kind::AND, kind::OR, kind::OR, kind::IMPLIES, kind::EQUALS, kind::EXCLUSIVE_OR];

/// always or eventually (a signal and what comes `delay` events later, joined once or twice). It
/// needs many states, sometimes more than a table can have. It has one temporal node more than the
/// delay.
pub fn delayed(rng: &mut Rng, signals: u8, delay: usize) -> Rule {
    let mut drawing = Drawing { signals, nodes: Vec::new() };
    let mut later = drawing.leaf(rng);
    for _ in 0..delay {
        if rng.chance(25) {
            later = drawing.joined(rng, later);
        }
        later = drawing.add(kind::NEXT, later, 0);
    }
    let mut whole = drawing.joined(rng, later);
    if rng.chance(50) {
        let not_later = drawing.add(kind::NOT, later, 0);
        let either = *rng.pick(&[later, not_later, not_later]);
        let other = drawing.joined(rng, either);
        whole = drawing.add(*rng.pick(&BINARY), whole, other);
    }
    drawing.add(*rng.pick(&[kind::ALWAYS, kind::ALWAYS, kind::EVENTUALLY]), whole, 0);
    Rule::new(signals, drawing.nodes)
}

/// always (a signal and what comes one or two events later), and two or three things that have to
/// come: its traces go round through several labels, and no single one of them has all that is due.
/// It has one signal or two, and four to six temporal nodes.
pub fn recurring(rng: &mut Rng) -> Rule {
    let signals = 1 + rng.byte_below(2);
    let mut drawing = Drawing { signals, nodes: Vec::new() };
    let now = drawing.literal(rng);
    let mut later = drawing.literal(rng);
    for _ in 0..rng.between(1, 2) {
        later = drawing.add(kind::NEXT, later, 0);
    }
    let bound = *rng.pick(&[kind::EXCLUSIVE_OR, kind::EXCLUSIVE_OR, kind::EQUALS, kind::IMPLIES]);
    let body = drawing.add(bound, now, later);
    let mut whole = drawing.add(kind::ALWAYS, body, 0);
    for _ in 0..rng.between(2, 3) {
        let (first, second) = (drawing.literal(rng), drawing.literal(rng));
        let due = *rng.pick(&[kind::EVENTUALLY, kind::EVENTUALLY, kind::UNTIL, kind::ALWAYS]);
        let second = if due == kind::UNTIL { second } else { 0 };
        let due = drawing.add(due, first, second);
        let join = *rng.pick(&[kind::AND, kind::AND, kind::OR, kind::IMPLIES]);
        whole = drawing.add(join, whole, due);
    }
    Rule::new(signals, drawing.nodes)
}

pub struct Drawing {
    pub signals: u8,
    pub nodes: Vec<FormulaNode>,
}

impl Drawing {
    /// The number of the new node, whose body has at most two bytes.
    pub fn add(&mut self, kind: u8, first: u8, second: u8) -> u8 {
        self.push(FormulaNode::new(kind, first, second))
    }

    /// The number of the new node.
    fn push(&mut self, node: FormulaNode) -> u8 {
        self.nodes.push(node);
        self.nodes.len() as u8 - 1
    }

    /// A signal, now and then a count of several.
    fn leaf(&mut self, rng: &mut Rng) -> u8 {
        if rng.chance(85) {
            return self.add(kind::SIGNAL, rng.byte_below(self.signals.into()), 0);
        }
        self.push(likely_count(rng, self.signals))
    }

    /// A leaf or its negation.
    fn literal(&mut self, rng: &mut Rng) -> u8 {
        let leaf = self.leaf(rng);
        if rng.chance(50) {
            return leaf;
        }
        self.add(kind::NOT, leaf, 0)
    }

    /// A leaf together with a node.
    fn joined(&mut self, rng: &mut Rng, node: u8) -> u8 {
        let leaf = self.leaf(rng);
        self.add(*rng.pick(&BINARY), leaf, node)
    }
}
