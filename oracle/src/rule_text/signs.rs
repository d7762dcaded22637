//! The signs of a rule text, and how tightly they bind.

use crate::rule::kind;

pub const OPENING: u8 = b'(';
pub const CLOSING: u8 = b')';
pub const SPACE: u8 = b' ';

/// A sign that is an operand by itself: its kind, and its signal or 0.
pub struct Leaf {
    pub sign: &'static str,
    pub kind: u8,
    pub signal: u8,
}

/// A sign before its operand.
pub struct Prefix {
    pub sign: &'static str,
    pub kind: u8,
}

/// A sign between its operands.
pub struct Binary {
    pub sign: &'static str,
    pub kind: u8,
    pub groups_right: bool,
}

const fn leaf(sign: &'static str, kind: u8, signal: u8) -> Leaf {
    Leaf { sign, kind, signal }
}

const fn prefix(sign: &'static str, kind: u8) -> Prefix {
    Prefix { sign, kind }
}

const fn left(sign: &'static str, kind: u8) -> Binary {
    Binary { sign, kind, groups_right: false }
}

const fn right(sign: &'static str, kind: u8) -> Binary {
    Binary { sign, kind, groups_right: true }
}

pub const LEAVES: [Leaf; 6] = [
    leaf("s0", kind::SIGNAL, 0),
    leaf("s1", kind::SIGNAL, 1),
    leaf("s2", kind::SIGNAL, 2),
    leaf("s3", kind::SIGNAL, 3),
    leaf("true", kind::TRUE, 0),
    leaf("false", kind::FALSE, 0),
];

pub const PREFIXES: [Prefix; 4] = [
    prefix("!", kind::NOT),
    prefix("X", kind::NEXT),
    prefix("F", kind::EVENTUALLY),
    prefix("G", kind::ALWAYS),
];

/// The tightest first.
pub const BINARIES: [Binary; 6] = [
    right("U", kind::UNTIL),
    left("&", kind::AND),
    left("^", kind::EXCLUSIVE_OR),
    left("|", kind::OR),
    right("->", kind::IMPLIES),
    left("<->", kind::EQUALS),
];

/// How loosely an operand holds together: 0 for a leaf, a bracket or a prefix with its operand, and from
/// there on by the binary sign that joins it, the tightest 1.
pub const LEVELS: usize = 1 + BINARIES.len();

/// Every sign, the brackets too.
pub fn all() -> impl Iterator<Item = &'static str> {
    let leaves = LEAVES.iter().map(|leaf| leaf.sign);
    let prefixes = PREFIXES.iter().map(|prefix| prefix.sign);
    let binaries = BINARIES.iter().map(|binary| binary.sign);
    leaves.chain(prefixes).chain(binaries).chain(["(", ")"])
}
