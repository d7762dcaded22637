//! Rule texts made at random: trees printed with brackets and spaces, spoilt texts, and signs in any order.

use crate::rng::Rng;
use crate::rule::kind;
use crate::rule_text::signs::{self, BINARIES, LEAVES, PREFIXES};
use crate::rule_text::TextNode;

/// A tree of signs.
pub struct Tree {
    sign: &'static str,
    kind: u8,
    signal: u8,
    /// 0, or 1 up to 6 for a binary sign, the tightest first.
    level: usize,
    groups_right: bool,
    operands: Vec<Tree>,
}

/// What a random tree has: so many nodes, signals below `signals`, at most so many temporal signs.
#[derive(Clone, Copy, Debug)]
pub struct Plan {
    pub nodes: usize,
    pub signals: u8,
    pub temporal: usize,
}

impl Tree {
    pub fn random(rng: &mut Rng, mut plan: Plan) -> Tree {
        Tree::drawn(rng, plan.nodes, plan.signals, &mut plan.temporal)
    }

    fn drawn(rng: &mut Rng, nodes: usize, signals: u8, temporal: &mut usize) -> Tree {
        match nodes {
            1 => Tree::leaf(rng, signals),
            2 => Tree::prefixed(rng, nodes, signals, temporal),
            _ if rng.chance(25) => Tree::prefixed(rng, nodes, signals, temporal),
            _ => Tree::joined(rng, nodes, signals, temporal),
        }
    }

    fn leaf(rng: &mut Rng, signals: u8) -> Tree {
        let number = match rng.chance(80) {
            true => rng.below(signals.into()),
            false => rng.between(4, 5),
        };
        let leaf = &LEAVES[number];
        Tree::new(leaf.sign, leaf.kind, leaf.signal, Vec::new())
    }

    fn prefixed(rng: &mut Rng, nodes: usize, signals: u8, temporal: &mut usize) -> Tree {
        let prefix = match *temporal > 0 && rng.chance(60) {
            true => rng.pick(&PREFIXES[1..]),
            false => &PREFIXES[0],
        };
        *temporal -= usize::from(prefix.kind != kind::NOT);
        let operand = Tree::drawn(rng, nodes - 1, signals, temporal);
        Tree::new(prefix.sign, prefix.kind, 0, vec![operand])
    }

    fn joined(rng: &mut Rng, nodes: usize, signals: u8, temporal: &mut usize) -> Tree {
        let number = rng.between(usize::from(*temporal == 0), BINARIES.len() - 1);
        let binary = &BINARIES[number];
        *temporal -= usize::from(binary.kind == kind::UNTIL);
        let left_nodes = rng.between(1, nodes - 2);
        let left = Tree::drawn(rng, left_nodes, signals, temporal);
        let right = Tree::drawn(rng, nodes - 1 - left_nodes, signals, temporal);
        let tree = Tree::new(binary.sign, binary.kind, 0, vec![left, right]);
        Tree { level: number + 1, groups_right: binary.groups_right, ..tree }
    }

    fn new(sign: &'static str, kind: u8, signal: u8, operands: Vec<Tree>) -> Tree {
        Tree { sign, kind, signal, level: 0, groups_right: false, operands }
    }

    /// The nodes that the text of the tree stands for.
    pub fn nodes(&self) -> Vec<TextNode> {
        let mut nodes = Vec::new();
        self.push_nodes(&mut nodes);
        nodes
    }

    fn push_nodes(&self, nodes: &mut Vec<TextNode>) -> usize {
        let operands = self.operands.iter().map(|operand| operand.push_nodes(nodes)).collect();
        nodes.push(TextNode { kind: self.kind, signal: self.signal, operands });
        nodes.len() - 1
    }

    /// The signs of the tree, with the brackets that it needs, and around each part of it others by chance.
    pub fn signs(&self, rng: &mut Rng, percent: usize) -> Vec<&'static str> {
        let mut signs = Vec::new();
        self.push_signs(rng, percent, false, &mut signs);
        signs
    }

    fn push_signs(
        &self,
        rng: &mut Rng,
        percent: usize,
        needed: bool,
        signs: &mut Vec<&'static str>,
    ) {
        let pairs = usize::from(needed) + unneeded_pairs(rng, percent);
        signs.extend(vec!["("; pairs]);
        match &self.operands[..] {
            [] => signs.push(self.sign),
            [operand] => {
                signs.push(self.sign);
                operand.push_signs(rng, percent, operand.level > 0, signs);
            }
            [left, right] => {
                let (left_limit, right_limit) = match self.groups_right {
                    true => (self.level - 1, self.level),
                    false => (self.level, self.level - 1),
                };
                left.push_signs(rng, percent, left.level > left_limit, signs);
                signs.push(self.sign);
                right.push_signs(rng, percent, right.level > right_limit, signs);
            }
            _ => unreachable!("a sign has at most two operands"),
        }
        signs.extend(vec![")"; pairs]);
    }
}

fn unneeded_pairs(rng: &mut Rng, percent: usize) -> usize {
    match rng.chance(percent) {
        true => rng.between(1, 2),
        false => 0,
    }
}

/// The signs as a text: without spaces, with one between any two, or with any number about each.
pub fn spaced(rng: &mut Rng, signs: &[&str]) -> Vec<u8> {
    match rng.below(3) {
        0 => signs.concat().into_bytes(),
        1 => signs.join(" ").into_bytes(),
        _ => {
            let spaces = |rng: &mut Rng| " ".repeat(rng.between(0, 5).saturating_sub(3));
            let mut text = spaces(rng);
            for sign in signs {
                text.push_str(sign);
                text.push_str(&spaces(rng));
            }
            text.into_bytes()
        }
    }
}

/// The text of a random tree.
pub fn random_text(rng: &mut Rng, plan: Plan) -> Vec<u8> {
    let percent = *rng.pick(&[0, 0, 10, 30]);
    let signs = Tree::random(rng, plan).signs(rng, percent);
    spaced(rng, &signs)
}

/// A plan of a few nodes, over any number of signals.
pub fn short_plan(rng: &mut Rng, limit: usize) -> Plan {
    let temporal = rng.between(0, 7);
    Plan { nodes: rng.between(1, limit), signals: 1 + rng.byte_below(4), temporal }
}

/// A byte of some sign, a space, or any byte.
pub fn likely_byte(rng: &mut Rng) -> u8 {
    match rng.chance(90) {
        true => *rng.pick(b"s0123trueflaXFGU!&^|()<->  "),
        false => rng.byte_below(256),
    }
}

/// Changes one place, now and then several. What comes out may still fit.
pub fn spoil(rng: &mut Rng, text: &mut Vec<u8>) {
    let changes = if rng.chance(70) { 1 } else { rng.between(2, 4) };
    for _ in 0..changes {
        spoil_once(rng, text);
    }
}

fn spoil_once(rng: &mut Rng, text: &mut Vec<u8>) {
    let place = rng.below(text.len() + 1);
    if place == text.len() {
        text.push(likely_byte(rng));
        return;
    }
    match rng.below(8) {
        0..=1 => text[place] = likely_byte(rng),
        2 => text.insert(place, likely_byte(rng)),
        3..=4 => drop(text.remove(place)),
        5 => text.truncate(place),
        6 => put_sign(rng, text, place),
        _ => repeat_part(rng, text, place),
    }
}

fn put_sign(rng: &mut Rng, text: &mut Vec<u8>, place: usize) {
    let sign = random_sign(rng).bytes();
    text.splice(place..place, sign);
}

/// Inserts once more what stands after a place.
fn repeat_part(rng: &mut Rng, text: &mut Vec<u8>, place: usize) {
    let end = text.len().min(place + rng.between(1, 8));
    let part = text[place..end].to_vec();
    text.splice(place..place, part);
}

fn random_sign(rng: &mut Rng) -> &'static str {
    let all: Vec<&str> = signs::all().collect();
    all[rng.below(all.len())]
}

/// Signs in any order.
pub fn soup_of_signs(rng: &mut Rng, count: usize) -> Vec<u8> {
    let signs: Vec<&str> = (0..count).map(|_| random_sign(rng)).collect();
    spaced(rng, &signs)
}

/// Bytes of signs in any order.
pub fn soup_of_bytes(rng: &mut Rng, count: usize) -> Vec<u8> {
    (0..count).map(|_| likely_byte(rng)).collect()
}

/// A sign that can stand where an operand is due, or where one has ended: mostly a good text up to its end.
pub fn wandering(rng: &mut Rng, count: usize) -> Vec<u8> {
    let before = ["s0", "s1", "s2", "s3", "true", "false", "!", "X", "F", "G", "(", "("];
    let after = ["U", "&", "^", "|", "->", "<->", ")", ")"];
    let mut operand_is_due = true;
    let mut signs = Vec::new();
    for _ in 0..count {
        let sign = *rng.pick(if operand_is_due { &before[..] } else { &after[..] });
        let ends_an_operand = sign == ")" || LEAVES.iter().any(|leaf| leaf.sign == sign);
        operand_is_due = !ends_an_operand;
        signs.push(sign);
    }
    spaced(rng, &signs)
}

#[cfg(test)]
mod tests {
    use super::*;
    use crate::rule_text;

    #[test]
    fn printed_trees_are_read_as_the_trees() {
        let mut rng = Rng::new(41);
        for round in 0..3000 {
            let plan = Plan { temporal: round % 12, ..short_plan(&mut rng, 30) };
            let tree = Tree::random(&mut rng, plan);
            let signs = tree.signs(&mut rng, *[0, 20].get(round % 2).unwrap());
            let text = spaced(&mut rng, &signs);
            assert_eq!(tree.nodes().len(), plan.nodes);
            assert_eq!(rule_text::read(&text), Ok(tree.nodes()), "{signs:?}");
        }
    }

    #[test]
    fn spoilt_and_mixed_texts_are_of_both_kinds() {
        let mut rng = Rng::new(42);
        let draw = |rng: &mut Rng| {
            let plan = short_plan(rng, 8);
            let mut text = random_text(rng, plan);
            spoil(rng, &mut text);
            text
        };
        let spoilt: Vec<_> = (0..1000).map(|_| draw(&mut rng)).collect();
        let wandering: Vec<_> = (0..1000).map(|round| wandering(&mut rng, round % 9)).collect();
        for texts in [spoilt, wandering] {
            let fitting = texts.iter().filter(|text| rule_text::read(text).is_ok()).count();
            assert!((100..=900).contains(&fitting), "{fitting}");
        }
    }
}
