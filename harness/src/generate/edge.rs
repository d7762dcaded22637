//! Variants of the rules at the edge of 256 remaining properties, and tables of them, some with a
//! mask without which there would be a property too many.
//!
//! Drawn are the four bits that an event shows, each a signal or an exclusive or of some, the bits
//! that are turned round, the order of the seven numbers, the terms that are negated, and how the
//! terms are joined. So a walk meets as many remaining properties in many orders, and the labels
//! stand for other things.

use oracle::builder;
use oracle::lasso::satisfies;
use oracle::mask::Mask;
use oracle::random_masks::any_mask;
use oracle::rng::Rng;
use oracle::rule::{kind, Rule};

use super::planned::Drawing;
use super::{events, openings};
use crate::case::{Case, Input, Room};
use crate::tefuji::TABLE_MAX;

/// How many of the first cases are of these rules, the last of them with a mask.
pub const CASES: u64 = 300 + MASKED;
const MASKED: u64 = 80;

/// By number: two builds of a full table, one of merged states, one that is refused, and a run.
pub fn case(rng: &mut Rng, number: u64) -> Case {
    if number >= CASES - MASKED {
        return masked_case(rng, number);
    }
    let (origin, rule) = match number % 10 {
        2 | 4 | 7 => ("merged states", variant(rng, First::WithAnother, Last::Merged)),
        3 => ("one too many", variant(rng, First::Alone, Last::Due)),
        8 => ("one too many", variant(rng, First::Alone, Last::Merged)),
        _ => ("full table", variant(rng, First::WithAnother, Last::Due)),
    };
    case_of(rng, number, origin, rule)
}

/// By number: two of one too many without the event that makes the difference, so that the table is
/// full, or has merged states, and one of a full table with any mask.
fn masked_case(rng: &mut Rng, number: u64) -> Case {
    let last = if number % 4 == 1 { Last::Merged } else { Last::Due };
    let origin = "edge with a mask";
    if number % 4 == 3 {
        let mask = any_mask(rng, 4);
        let rule = variant(rng, First::WithAnother, last).with_mask(mask);
        return case_of(rng, number, origin, rule);
    }
    let terms = Terms::new(rng);
    let mask = terms.without_the_fourth_alone();
    let rule = terms.variant(rng, First::Alone, last).with_mask(mask);
    case_of(rng, number, origin, rule)
}

fn case_of(rng: &mut Rng, number: u64, origin: &'static str, rule: Rule) -> Case {
    let rule = rule.to_bytes();
    if number % 5 == 4 {
        let table = table_of(&rule);
        let number = openings::number(rng);
        let opened = events::opened(rng, &table, number);
        let (state, events) = (events::state(rng, &table, number), events::list(rng, &table));
        let cell = events::number(rng);
        return Case { origin, input: Input::Run { table, opened, state, events, cell } };
    }
    let paint = rng.byte_below(256);
    let rooms = vec![Room::ShortBy(1), Room::Exact, Room::LongerBy(rng.between(1, 100))];
    Case { origin, input: Input::Build { rule, rooms, paint } }
}

fn table_of(rule: &[u8]) -> Vec<u8> {
    let mut table = vec![0; TABLE_MAX];
    let length = builder::build(rule, &mut table).expect("at most 256 remaining properties");
    table.truncate(length);
    table
}

/// The term that the first event decides.
enum First {
    /// The fourth bit, where the others do not show 0: 256 remaining properties.
    WithAnother,
    /// The fourth bit: 257.
    Alone,
}

/// The term of the seventh number.
enum Last {
    /// It comes: as many states as remaining properties.
    Due,
    /// The first event shows it, and another number comes for ever: about half of them are one
    /// state.
    Merged,
}

fn variant(rng: &mut Rng, first: First, last: Last) -> Rule {
    Terms::new(rng).variant(rng, first, last)
}

/// The parts of such a rule.
struct Terms {
    drawing: Drawing,
    /// For each of the three bits that show a number: off and on, or the other way round.
    literals: [[u8; 2]; 3],
    fourth: u8,
    /// The numbers 1 to 7, in any order.
    order: [u8; 7],
}

impl Terms {
    fn new(rng: &mut Rng) -> Self {
        let mut drawing = Drawing { signals: 4, nodes: Vec::new() };
        let mut bits = shuffled(rng, [0, 1, 2, 3]).map(|bit| drawing.add(kind::SIGNAL, bit, 0));
        // Whichever bit is added to another, the four still tell all events apart.
        for _ in 0..rng.below(4) {
            let [to, from, ..] = shuffled(rng, [0, 1, 2, 3]).map(usize::from);
            bits[to] = drawing.add(kind::EXCLUSIVE_OR, bits[to], bits[from]);
        }
        let [fourth, shown @ ..] = bits;
        let literals = shown.map(|on| shuffled(rng, [on, drawing.add(kind::NOT, on, 0)]));
        Terms { drawing, literals, fourth, order: shuffled(rng, [1, 2, 3, 4, 5, 6, 7]) }
    }

    fn variant(mut self, rng: &mut Rng, first: First, last: Last) -> Rule {
        let [seventh, others @ ..] = self.numbers();
        let mut all = others.map(|number| self.eventually(rng, number)).to_vec();
        let last = match last {
            Last::Due => self.eventually(rng, seventh),
            Last::Merged => self.undecidable(seventh, *rng.pick(&all)),
        };
        let first = match first {
            First::WithAnother => self.fourth_with_another(),
            First::Alone => self.fourth,
        };
        all.extend([first, last]);
        self.joined(rng, all)
    }

    /// Every event but the one that has the fourth bit on while the others show 0.
    fn without_the_fourth_alone(&self) -> Mask {
        let mut drawing = Drawing { signals: 4, nodes: self.drawing.nodes.clone() };
        let [first, second, third] = self.literals.map(|[off, _]| off);
        let both = drawing.add(kind::AND, first, second);
        let zero = drawing.add(kind::AND, both, third);
        drawing.add(kind::AND, zero, self.fourth);
        let alone = Rule::new(4, drawing.nodes);
        let event = (0..16).find(|&event| satisfies(&alone, &[event], 0));
        !(1 << event.expect("four bits tell all events apart"))
    }

    /// For each number that the three bits show it.
    fn numbers(&mut self) -> [u8; 7] {
        let [first, second, third] = self.literals;
        self.order.map(|number| {
            let bit = |place: u8| usize::from(number >> place & 1);
            let both = self.drawing.add(kind::AND, first[bit(0)], second[bit(1)]);
            self.drawing.add(kind::AND, both, third[bit(2)])
        })
    }

    /// The fourth bit is on, and the others do not show 0.
    fn fourth_with_another(&mut self) -> u8 {
        let [first, second, third] = self.literals.map(|[_, on]| on);
        let either = self.drawing.add(kind::OR, first, second);
        let any = self.drawing.add(kind::OR, either, third);
        self.drawing.add(kind::AND, self.fourth, any)
    }

    /// Eventually the node, or that it never comes.
    fn eventually(&mut self, rng: &mut Rng, node: u8) -> u8 {
        if rng.chance(60) {
            return self.drawing.add(kind::EVENTUALLY, node, 0);
        }
        let not = self.drawing.add(kind::NOT, node, 0);
        self.drawing.add(kind::ALWAYS, not, 0)
    }

    /// The node, and always eventually what is to come, or at last always that it does not.
    fn undecidable(&mut self, node: u8, due: u8) -> u8 {
        let kind = match self.drawing.nodes[usize::from(due)].kind {
            kind::EVENTUALLY => kind::ALWAYS,
            _ => kind::EVENTUALLY,
        };
        let for_ever = self.drawing.add(kind, due, 0);
        self.drawing.add(kind::AND, node, for_ever)
    }

    /// All of them by exclusive or and its negation, in any order and with any brackets, some
    /// negated.
    fn joined(mut self, rng: &mut Rng, mut terms: Vec<u8>) -> Rule {
        while terms.len() > 1 {
            let [first, second] = [(); 2].map(|()| terms.swap_remove(rng.below(terms.len())));
            let kind = *rng.pick(&[kind::EXCLUSIVE_OR, kind::EXCLUSIVE_OR, kind::EQUALS]);
            let whole = self.drawing.add(kind, first, second);
            terms.push(if rng.chance(20) { self.drawing.add(kind::NOT, whole, 0) } else { whole });
        }
        Rule::new(4, self.drawing.nodes)
    }
}

fn shuffled<const N: usize>(rng: &mut Rng, mut items: [u8; N]) -> [u8; N] {
    for last in (1..N).rev() {
        items.swap(last, rng.below(last + 1));
    }
    items
}
