//! Truth of a rule on a lasso, straight from document 01's "Meaning of a rule" and document
//! 02's count between two bounds.
//!
//! A lasso is a finite list of events, the stem, followed by a non-empty list
//! repeated for ever, the loop. Its positions are those of stem and loop; the
//! one after the last is the start of the loop. A set of positions is a machine
//! word, bit i for position i.

use crate::rule::{kind, BodyShape, FormulaNode, Rule};

/// The most positions of a lasso: with the loop written twice they fit a word.
pub const POSITIONS: usize = 31;

/// The most nodes of a rule.
const NODES: usize = 64;

/// A set of positions.
type Positions = u64;

/// Whether the rule holds at the first position of the lasso whose stem and
/// loop are one list, the loop from `loop_start` to the end.
pub fn satisfies(rule: &Rule, events: &[u8], loop_start: usize) -> bool {
    let mut evaluation = Evaluation::of(rule);
    evaluation.read(events);
    evaluation.holds(loop_start)
}

/// The truth at every position of a lasso of every node that the rule needs.
/// One list of events can be split into stem and loop in several ways.
pub struct Evaluation {
    /// Nodes that look at an event, with their numbers.
    atoms: Vec<(usize, FormulaNode)>,
    /// Nodes that look at other nodes, or at nothing, with their numbers.
    operators: Vec<(usize, FormulaNode)>,
    last: usize,
    length: usize,
    truth: [Positions; NODES],
}

impl Evaluation {
    pub fn of(rule: &Rule) -> Self {
        let needed = needed_nodes(rule);
        let nodes = rule.nodes.iter().copied().enumerate().filter(|&(number, _)| needed[number]);
        let (atoms, operators) = nodes.partition(|(_, node)| is_atom(*node));
        let last = rule.nodes.len() - 1;
        Evaluation { atoms, operators, last, length: 0, truth: [0; NODES] }
    }

    /// Takes the events of stem and loop, which alone decide the atoms.
    pub fn read(&mut self, events: &[u8]) {
        assert!(events.len() <= POSITIONS, "a lasso has at most {POSITIONS} positions");
        self.length = events.len();
        for &(number, node) in &self.atoms {
            let counts = u32::from(node.second)..=node.upper().into();
            let test = |event: u8| match node.kind {
                kind::SIGNAL => event >> node.first & 1 != 0,
                _ => counts.contains(&(event & node.first).count_ones()),
            };
            let truth = positions_where(events.len(), |position| test(events[position]));
            self.truth[number] = truth;
        }
    }

    /// Whether the rule holds at the first position, if the loop starts there.
    pub fn holds(&mut self, loop_start: usize) -> bool {
        assert!(loop_start < self.length, "the loop is not empty");
        let lasso = Lasso { length: self.length, loop_start };
        for &(number, node) in &self.operators {
            let a = self.truth[usize::from(node.first) % NODES];
            let b = self.truth[usize::from(node.second) % NODES];
            self.truth[number] = lasso.truth_of(node, a, b);
        }
        self.truth[self.last] & 1 != 0
    }
}

fn is_atom(node: FormulaNode) -> bool {
    matches!(node.kind, kind::SIGNAL | kind::AT_LEAST)
}

/// By number: whether the last node is the node or rests on it.
fn needed_nodes(rule: &Rule) -> [bool; NODES] {
    let mut needed = [false; NODES];
    needed[rule.nodes.len() - 1] = true;
    for (number, node) in rule.nodes.iter().enumerate().rev() {
        if needed[number] {
            match node.shape() {
                BodyShape::OneOperand => needed[usize::from(node.first)] = true,
                BodyShape::TwoOperands => {
                    needed[usize::from(node.first)] = true;
                    needed[usize::from(node.second)] = true;
                }
                _ => {}
            }
        }
    }
    needed
}

/// The positions of a lasso.
#[derive(Clone, Copy)]
struct Lasso {
    length: usize,
    loop_start: usize,
}

impl Lasso {
    /// The positions at which a node holds, from those of its operands.
    fn truth_of(self, node: FormulaNode, a: Positions, b: Positions) -> Positions {
        match node.kind {
            kind::FALSE => 0,
            kind::TRUE => self.all(),
            kind::NOT => self.not(a),
            kind::AND => a & b,
            kind::OR => a | b,
            kind::IMPLIES => self.not(a) | b,
            kind::EQUALS => self.not(a ^ b),
            kind::EXCLUSIVE_OR => a ^ b,
            kind::NEXT => self.next(a),
            kind::UNTIL => self.until(a, b),
            kind::EVENTUALLY => self.until(self.all(), a),
            kind::ALWAYS => self.not(self.until(self.all(), self.not(a))),
            _ => unreachable!("the other kinds look at an event"),
        }
    }

    fn all(self) -> Positions {
        (1 << self.length) - 1
    }

    fn not(self, a: Positions) -> Positions {
        self.all() & !a
    }

    /// Where a holds one position later.
    fn next(self, a: Positions) -> Positions {
        self.unrolled(a) >> 1 & self.all()
    }

    /// Where b holds now or later and a holds at each position before that one.
    ///
    /// From any position on, the positions of the lasso and one more turn of
    /// the loop are all that there are to search. The first one with b is
    /// compared with the first one without a, which is past the end if each
    /// has a; without any b the count of zeros is 64, which is further still.
    fn until(self, a: Positions, b: Positions) -> Positions {
        let without_a = !self.unrolled(a);
        let with_b = self.unrolled(b);
        positions_where(self.length, |position| {
            let first_with_b = (with_b >> position).trailing_zeros();
            let first_without_a = (without_a >> position).trailing_zeros();
            first_with_b <= first_without_a
        })
    }

    /// The set with one more turn of the loop written after the last position.
    fn unrolled(self, a: Positions) -> Positions {
        a | a >> self.loop_start << self.length
    }
}

fn positions_where(length: usize, test: impl Fn(usize) -> bool) -> Positions {
    (0..length).fold(0, |set, position| set | Positions::from(test(position)) << position)
}

#[cfg(test)]
mod tests {
    use super::*;
    use crate::random_rules::Shape;
    use crate::rng::Rng;
    use crate::vectors::rule_samples::{rule, NodeBytes, COUNT_COLUMNS, P, Q};

    const NOT_P: NodeBytes = (kind::NOT, 0, 0);

    /// Whether the rule holds on stem and loop.
    fn holds(signals: u8, nodes: &[NodeBytes], stem: &[u8], turn: &[u8]) -> bool {
        let events = [stem, turn].concat();
        satisfies(&rule(signals, nodes), &events, stem.len())
    }

    /// Truth of one node over p and q at the single event.
    fn now(node: NodeBytes, event: u8) -> bool {
        holds(2, &[P, Q, node], &[event], &[0])
    }

    #[test]
    fn propositional_nodes_have_their_truth_tables() {
        let column = |node| [0, 1, 2, 3].map(|event| u8::from(now(node, event)));
        assert_eq!(column((kind::FALSE, 0, 0)), [0, 0, 0, 0]);
        assert_eq!(column((kind::TRUE, 0, 0)), [1, 1, 1, 1]);
        assert_eq!(column((kind::SIGNAL, 0, 0)), [0, 1, 0, 1]);
        assert_eq!(column((kind::SIGNAL, 1, 0)), [0, 0, 1, 1]);
        assert_eq!(column((kind::NOT, 1, 0)), [1, 1, 0, 0]);
        assert_eq!(column((kind::AND, 0, 1)), [0, 0, 0, 1]);
        assert_eq!(column((kind::OR, 0, 1)), [0, 1, 1, 1]);
        assert_eq!(column((kind::IMPLIES, 0, 1)), [1, 0, 1, 1]);
        assert_eq!(column((kind::EQUALS, 0, 1)), [1, 0, 0, 1]);
        assert_eq!(column((kind::EXCLUSIVE_OR, 0, 1)), [0, 1, 1, 0]);
    }

    #[test]
    fn at_least_counts_the_signals_of_the_mask() {
        for (node, column) in COUNT_COLUMNS {
            let alone = rule(2, &[node]);
            let by_words = [0, 1, 2, 3].map(|event| satisfies(&alone, &[event, 0], 1));
            let by_position = [0, 1, 2, 3].map(|event| plain(&alone, &[event, 0], 1, 0, 0));
            assert_eq!(by_words.map(u8::from), column, "{node}");
            assert_eq!(by_position.map(u8::from), column, "{node}");
        }
    }

    #[test]
    fn next_looks_one_position_later_and_around_the_loop() {
        let next = [P, (kind::NEXT, 0, 0)];
        assert!(holds(1, &next, &[0], &[1, 0]));
        assert!(!holds(1, &next, &[1], &[0, 1]));
        assert!(holds(1, &next, &[], &[1]));
        let next_next = [P, (kind::NEXT, 0, 0), (kind::NEXT, 1, 0)];
        assert!(holds(1, &next_next, &[], &[1, 0]));
        assert!(!holds(1, &next_next, &[], &[0, 1]));
        assert!(holds(1, &next_next, &[0, 0], &[1]));
    }

    #[test]
    fn until_needs_its_right_side_and_its_left_side_before() {
        let until = [P, Q, (kind::UNTIL, 0, 1)];
        assert!(holds(2, &until, &[], &[2]));
        assert!(holds(2, &until, &[1, 1], &[2, 0]));
        assert!(!holds(2, &until, &[1, 0], &[2]));
        assert!(!holds(2, &until, &[], &[1]));
        assert!(!holds(2, &until, &[1], &[1, 1]));
        assert!(!holds(2, &until, &[0], &[2]));
    }

    #[test]
    fn until_is_searched_around_the_loop() {
        let later = [P, Q, (kind::UNTIL, 0, 1), (kind::NEXT, 2, 0), (kind::NEXT, 3, 0)];
        assert!(holds(2, &later, &[], &[2, 0, 1]));
        assert!(holds(2, &later, &[0], &[1, 1, 2]));
        assert!(!holds(2, &later, &[2], &[0, 1]));
        assert!(!holds(2, &later, &[], &[0, 2, 1]));
    }

    #[test]
    fn eventually_and_always_see_stem_and_loop() {
        let eventually = [P, (kind::EVENTUALLY, 0, 0)];
        let always = [P, (kind::ALWAYS, 0, 0)];
        assert!(holds(1, &eventually, &[0, 1], &[0]));
        assert!(holds(1, &eventually, &[0], &[0, 1]));
        assert!(!holds(1, &eventually, &[0], &[0, 0]));
        assert!(holds(1, &always, &[1], &[1, 1]));
        assert!(!holds(1, &always, &[0], &[1]));
        assert!(!holds(1, &always, &[1], &[1, 0]));
    }

    #[test]
    fn infinitely_often_forgets_the_stem() {
        let infinitely_often = [P, (kind::EVENTUALLY, 0, 0), (kind::ALWAYS, 1, 0)];
        assert!(holds(1, &infinitely_often, &[0, 0], &[0, 1]));
        assert!(!holds(1, &infinitely_often, &[1, 1], &[0]));
        let at_last = [P, NOT_P, (kind::ALWAYS, 1, 0), (kind::EVENTUALLY, 2, 0)];
        assert!(holds(1, &at_last, &[1, 1], &[0]));
        assert!(!holds(1, &at_last, &[0, 0], &[0, 1]));
    }

    /// A node at a position, by recursion over the definitions, one position
    /// after another.
    fn plain(rule: &Rule, events: &[u8], loop_start: usize, number: u8, position: usize) -> bool {
        let node = rule.nodes[usize::from(number)];
        let at = |number, position| plain(rule, events, loop_start, number, position);
        let later = |position| if position + 1 < events.len() { position + 1 } else { loop_start };
        let until = |a: &dyn Fn(usize) -> bool, b: &dyn Fn(usize) -> bool| {
            let ahead = std::iter::successors(Some(position), |&place| Some(later(place)));
            let places: Vec<usize> = ahead.take(events.len()).collect();
            let ends = (0..places.len()).filter(|&end| b(places[end]));
            ends.into_iter().any(|end| places[..end].iter().all(|&place| a(place)))
        };
        let (a, b) = (node.first, node.second);
        match node.kind {
            kind::FALSE => false,
            kind::TRUE => true,
            kind::SIGNAL => events[position] >> a & 1 == 1,
            kind::AT_LEAST => {
                let is_on = |signal: &u8| events[position] & a & 1 << signal != 0;
                let count = (0..4).filter(is_on).count();
                usize::from(b) <= count && count <= node.upper().into()
            }
            kind::NOT => !at(a, position),
            kind::AND => at(a, position) && at(b, position),
            kind::OR => at(a, position) || at(b, position),
            kind::IMPLIES => !at(a, position) || at(b, position),
            kind::EQUALS => at(a, position) == at(b, position),
            kind::EXCLUSIVE_OR => at(a, position) != at(b, position),
            kind::NEXT => at(a, later(position)),
            kind::UNTIL => until(&|place| at(a, place), &|place| at(b, place)),
            kind::EVENTUALLY => until(&|_| true, &|place| at(a, place)),
            _ => !until(&|_| true, &|place| !at(a, place)),
        }
    }

    #[test]
    fn the_search_by_words_is_the_search_position_by_position() {
        let mut rng = Rng::new(22);
        for _ in 0..3000 {
            let rule = Shape::searchable().draw(&mut rng);
            let length = rng.between(1, 7);
            let events: Vec<u8> = (0..length).map(|_| rng.byte_below(1 << rule.signals)).collect();
            let loop_start = rng.below(length);
            let last = rule.nodes.len() as u8 - 1;
            let expected = plain(&rule, &events, loop_start, last, 0);
            assert_eq!(satisfies(&rule, &events, loop_start), expected, "{rule} {events:?}");
        }
    }

    /// Turning the loop by one and writing it twice leave the trace alone.
    #[test]
    fn the_same_trace_has_the_same_truth() {
        let mut rng = Rng::new(21);
        for _ in 0..500 {
            let rule = crate::vectors::rule_samples::random_short_rule(&mut rng, 12);
            let mut events = || -> Vec<u8> {
                (0..rng.between(1, 4)).map(|_| rng.byte_below(1 << rule.signals)).collect()
            };
            let (stem, turn) = (events(), events());
            let truth =
                |stem: &[u8], turn: &[u8]| satisfies(&rule, &[stem, turn].concat(), stem.len());
            let expected = truth(&stem, &turn);
            let longer_stem = [&stem[..], &turn[..1]].concat();
            let turned = [&turn[1..], &turn[..1]].concat();
            assert_eq!(truth(&longer_stem, &turned), expected, "{rule}");
            assert_eq!(truth(&stem, &[&turn[..], &turn].concat()), expected, "{rule}");
        }
    }
}
