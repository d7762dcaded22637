//! Rules made at random, the same for the same seed.

use std::ops::RangeInclusive;

use crate::builder;
use crate::mask;
use crate::random_masks::Leaving;
use crate::rng::Rng;
use crate::rule::{kind, FormulaNode, Rule, TEMPORAL_LIMIT};
use crate::table::{Monitor, Verdict};

/// What a random rule may be.
#[derive(Clone, Debug)]
pub struct Shape {
    pub signals: RangeInclusive<u8>,
    pub temporal: RangeInclusive<usize>,
    /// The most nodes; at least three, and more than the temporal ones.
    pub nodes: usize,
}

impl Shape {
    /// The rules that the search can judge.
    pub fn searchable() -> Self {
        Shape { signals: 1..=3, temporal: 0..=3, nodes: 12 }
    }

    /// A good rule. It often uses a node several times, and sometimes not at all.
    pub fn draw(&self, rng: &mut Rng) -> Rule {
        let signals =
            rng.between((*self.signals.start()).into(), (*self.signals.end()).into()) as u8;
        let temporal = rng.between(*self.temporal.start(), *self.temporal.end());
        assert!(temporal <= TEMPORAL_LIMIT && temporal + 2 < self.nodes);
        let count = rng.between((temporal + 1).max(2), self.nodes);
        let mut drawing = Drawing { signals, nodes: Vec::new(), unused: Vec::new() };
        let mut due = temporal;
        for number in 0..count {
            let takes_temporal = number > 0 && rng.below(count - number) < due;
            due -= usize::from(takes_temporal);
            drawing.add_node(rng, takes_temporal);
        }
        Rule::new(signals, drawing.nodes)
    }

    /// A rule whose table has what seldom comes by itself: at least one up to
    /// eight states, each as often, or a moot state. After many vain draws, and
    /// if its table is refused, it is any rule.
    pub fn draw_interesting(&self, rng: &mut Rng) -> Rule {
        let wanted = Wanted::draw(rng, 8);
        until(rng, 5000, |rng| self.draw(rng), |rule| wanted.has(rule))
    }

    /// Such a rule with a mask, up to six states, half of them with a mask without which the
    /// table has another number of states.
    pub fn draw_masked(&self, rng: &mut Rng, leaving: Leaving) -> Rule {
        let masked = |rng: &mut Rng| {
            let rule = self.draw(rng);
            let mask = leaving.draw(rng, rule.signals);
            rule.with_mask(mask)
        };
        let (wanted, wants_change) = (Wanted::draw(rng, 6), rng.chance(50));
        until(rng, 300, masked, |rule| {
            let is_changed = !wants_change || is_changed_by_its_mask(rule);
            // With one event there is one state.
            is_changed && (leaving == Leaving::One || wanted.has(rule))
        })
    }
}

/// Whether the table has another number of states without the rule's mask.
pub fn is_changed_by_its_mask(rule: &Rule) -> bool {
    let states = |rule: &Rule| table_of(rule).map(|monitor| monitor.states.len());
    rule.possible() != mask::full(rule.signals)
        && states(rule) != states(&rule.clone().without_mask())
}

/// What a table is to have.
struct Wanted {
    states: usize,
    moot: bool,
}

impl Wanted {
    fn draw(rng: &mut Rng, most_states: usize) -> Self {
        let moot = rng.chance(15);
        Wanted { states: rng.between(1, if moot { 3 } else { most_states }), moot }
    }

    /// Whether the rule's table has it, or is refused.
    fn has(&self, rule: &Rule) -> bool {
        table_of(rule).is_none_or(|monitor| {
            let has_moot = monitor.states.iter().any(|state| state.verdict == Verdict::Moot);
            monitor.states.len() >= self.states && (has_moot || !self.moot)
        })
    }
}

/// The first rule drawn that passes, or any after so many vain draws.
fn until(
    rng: &mut Rng,
    vain_draws: usize,
    draw: impl Fn(&mut Rng) -> Rule,
    is_wanted: impl Fn(&Rule) -> bool,
) -> Rule {
    let mut rule = draw(rng);
    for _ in 0..vain_draws {
        if is_wanted(&rule) {
            break;
        }
        rule = draw(rng);
    }
    rule
}

/// The table of a rule; none if it is refused.
fn table_of(rule: &Rule) -> Option<Monitor> {
    let mut output = [0; 9479];
    let length = builder::build(&rule.to_bytes(), &mut output).ok()?;
    Monitor::open(&output[..length]).ok()
}

/// Any "at least", of the signals in any mask, half of them with an upper count.
pub fn any_count(rng: &mut Rng, signals: u8) -> FormulaNode {
    let (mask, least) = (rng.byte_below(1 << signals), rng.byte_below(5));
    match rng.chance(50) {
        true => FormulaNode::new(kind::AT_LEAST, mask, least),
        false => FormulaNode::between(mask, least, rng.byte_below(5)),
    }
}

/// An "at least" of the signals in any mask, mostly with an upper count, seldom one that no event
/// meets.
pub fn likely_count(rng: &mut Rng, signals: u8) -> FormulaNode {
    if rng.chance(15) {
        return any_count(rng, signals);
    }
    let mask = 1 + rng.byte_below((1 << signals) - 1);
    let all = mask.count_ones() as usize;
    if rng.chance(35) {
        return FormulaNode::new(kind::AT_LEAST, mask, rng.between(1, all) as u8);
    }
    // An upper count of all the signals of the mask adds nothing to the lower one.
    let least = rng.between(0, all);
    let most = rng.between(least, least.max(all - 1));
    FormulaNode::between(mask, least as u8, most as u8)
}

const TEMPORAL_KINDS: [u8; 4] = [kind::NEXT, kind::UNTIL, kind::EVENTUALLY, kind::ALWAYS];

/// A rule that is being drawn, with the nodes that none uses so far.
struct Drawing {
    signals: u8,
    nodes: Vec<FormulaNode>,
    unused: Vec<u8>,
}

impl Drawing {
    fn add_node(&mut self, rng: &mut Rng, temporal: bool) {
        let kind = match temporal {
            true => *rng.pick(&TEMPORAL_KINDS),
            false => self.plain_kind(rng),
        };
        let new = |first, second| FormulaNode::new(kind, first, second);
        let node = match kind {
            kind::FALSE | kind::TRUE => new(0, 0),
            kind::SIGNAL => new(rng.byte_below(self.signals.into()), 0),
            kind::AT_LEAST => likely_count(rng, self.signals),
            kind::NOT | kind::NEXT | kind::EVENTUALLY | kind::ALWAYS => new(self.operand(rng), 0),
            _ => new(self.operand(rng), self.operand(rng)),
        };
        self.unused.push(self.nodes.len() as u8);
        self.nodes.push(node);
    }

    /// Leaves while few nodes wait to be used, operators while many do.
    fn plain_kind(&self, rng: &mut Rng) -> u8 {
        let leaf_chance = [100, 55, 30, 10][self.unused.len().min(3)];
        if self.nodes.is_empty() || rng.chance(leaf_chance) {
            return match rng.below(20) {
                0 => kind::FALSE,
                1 => kind::TRUE,
                2..=6 => kind::AT_LEAST,
                _ => kind::SIGNAL,
            };
        }
        match rng.chance(25) {
            true => kind::NOT,
            false => kind::AND + rng.byte_below(5),
        }
    }

    /// An earlier node, mostly one that waits to be used.
    fn operand(&mut self, rng: &mut Rng) -> u8 {
        if !self.unused.is_empty() && rng.chance(80) {
            let place = self.unused.len() - 1 - rng.below(self.unused.len().min(3));
            return self.unused.remove(place);
        }
        let operand = rng.byte_below(self.nodes.len());
        self.unused.retain(|&number| number != operand);
        operand
    }
}

#[cfg(test)]
mod tests {
    use super::*;
    use crate::rule::{temporal_count, BodyShape};

    fn sample() -> Vec<Rule> {
        let mut rng = Rng::new(31);
        (0..500).map(|_| Shape::searchable().draw_interesting(&mut rng)).collect()
    }

    fn uses(rule: &Rule, operand: usize) -> usize {
        let users = rule.nodes.iter().map(|node| match node.shape() {
            BodyShape::OneOperand => usize::from(usize::from(node.first) == operand),
            BodyShape::TwoOperands => {
                usize::from(usize::from(node.first) == operand)
                    + usize::from(usize::from(node.second) == operand)
            }
            _ => 0,
        });
        users.sum()
    }

    #[test]
    fn drawn_rules_are_good_and_have_the_shape() {
        for rule in sample() {
            assert_eq!(Rule::read(&rule.to_bytes()), Ok(rule.clone()));
            assert!((1..=3).contains(&rule.signals) && rule.nodes.len() <= 12);
            assert!(temporal_count(&rule.nodes) <= 3);
        }
        let large = Shape { signals: 4..=4, temporal: 7..=7, nodes: 20 };
        let mut rng = Rng::new(32);
        for _ in 0..100 {
            let rule = large.draw(&mut rng);
            assert_eq!(Rule::read(&rule.to_bytes()), Ok(rule.clone()));
            assert_eq!((rule.signals, temporal_count(&rule.nodes)), (4, 7));
        }
    }

    #[test]
    fn every_kind_number_of_signals_and_of_temporal_nodes_is_drawn_often() {
        let rules = sample();
        let often =
            |test: &dyn Fn(&Rule) -> bool| rules.iter().filter(|rule| test(rule)).count() >= 20;
        for kind in kind::FALSE..=kind::ALWAYS {
            assert!(often(&|rule| rule.nodes.iter().any(|node| node.kind == kind)), "kind {kind}");
        }
        for signals in 1..=3 {
            assert!(often(&|rule| rule.signals == signals));
        }
        for temporal in 0..=3 {
            assert!(often(&|rule| temporal_count(&rule.nodes) == temporal));
        }
    }

    #[test]
    fn counts_have_bodies_of_both_lengths_and_all_bounds() {
        let mut rng = Rng::new(33);
        let drawn: Vec<FormulaNode> = (0..4000).map(|_| likely_count(&mut rng, 4)).collect();
        for upper in [None, Some(0), Some(1), Some(2), Some(3), Some(4)] {
            for least in 0..=4 {
                let is_it = |node: &&FormulaNode| (node.second, node.third) == (least, upper);
                assert!(drawn.iter().filter(is_it).count() >= 5, "{least} {upper:?}");
            }
        }
        let depends_on_the_event = |node: &&FormulaNode| {
            let bare = Rule::new(4, vec![**node]);
            table_of(&bare).unwrap().states.len() == 3
        };
        assert!(drawn.iter().filter(depends_on_the_event).count() >= 2000);
    }

    #[test]
    fn nodes_are_shared_and_left_unused() {
        let rules = sample();
        let some = |rule: &Rule, test: &dyn Fn(usize) -> bool| {
            (0..rule.nodes.len() - 1).any(|number| test(uses(rule, number)))
        };
        assert!(rules.iter().filter(|rule| some(rule, &|uses| uses > 1)).count() >= 100);
        assert!(rules.iter().filter(|rule| some(rule, &|uses| uses == 0)).count() >= 50);
    }

    #[test]
    fn many_rules_have_several_states() {
        let tables: Vec<Monitor> = sample().iter().map(|rule| table_of(rule).unwrap()).collect();
        let counts: Vec<usize> = tables.iter().map(|monitor| monitor.states.len()).collect();
        assert!(counts.iter().filter(|&&count| count >= 3).count() >= 250);
        assert!(counts.iter().filter(|&&count| count >= 8).count() >= 50);
        assert!(counts.iter().filter(|&&count| count == 1).count() >= 20);
        let has_moot = |monitor: &&Monitor| {
            monitor.states.len() > 1
                && monitor.states.iter().any(|state| state.verdict == Verdict::Moot)
        };
        assert!(tables.iter().filter(has_moot).count() >= 30);
    }
}
