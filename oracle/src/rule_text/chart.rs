//! The chart of a text: for each byte, every part of the text that begins there and reads as an operand,
//! in every way in which it does. Nothing decides between ways: they are all kept, and counted in the end.

use super::signs::{Binary, BINARIES, CLOSING, LEAVES, LEVELS, OPENING, PREFIXES, SPACE};

/// An operator or a leaf, with the numbers of its operands in the chart.
#[derive(Clone, Debug)]
pub struct Node {
    pub kind: u8,
    pub signal: u8,
    pub operands: Vec<usize>,
}

/// One way to read the part up to `end`, which is just after its last sign.
#[derive(Clone, Copy, Debug)]
struct Reading {
    end: usize,
    node: usize,
}

pub struct Chart<'a> {
    text: &'a [u8],
    nodes: Vec<Node>,
    /// For each byte and each level the readings that begin there.
    readings: Vec<[Vec<Reading>; LEVELS]>,
}

impl<'a> Chart<'a> {
    pub fn of(text: &'a [u8]) -> Self {
        let readings = vec![Default::default(); text.len() + 1];
        let mut chart = Chart { text, nodes: Vec::new(), readings };
        for start in (0..text.len()).rev() {
            chart.read_leaves(start);
            chart.read_brackets(start);
            chart.read_prefixes(start);
            for (number, binary) in BINARIES.iter().enumerate() {
                chart.read_binary(start, binary, number + 1);
            }
        }
        chart
    }

    /// The roots of all readings of the whole text.
    pub fn whole(&self) -> Vec<usize> {
        let end = trimmed_length(self.text);
        let from_the_start = self.readings[self.sign_from(0)].iter().flatten();
        from_the_start.filter(|reading| reading.end == end).map(|reading| reading.node).collect()
    }

    /// The end of the longest part that reads as an operand from the first sign on; 0 if none does.
    pub fn longest(&self) -> usize {
        let from_the_start = self.readings[self.sign_from(0)].iter().flatten();
        from_the_start.map(|reading| reading.end).max().unwrap_or(0)
    }

    pub fn node(&self, number: usize) -> &Node {
        &self.nodes[number]
    }

    /// The place of the first byte from `place` on that is no space.
    fn sign_from(&self, place: usize) -> usize {
        let spaces = self.text[place..].iter().take_while(|&&byte| byte == SPACE).count();
        place + spaces
    }

    fn has(&self, place: usize, sign: &str) -> bool {
        self.text[place..].starts_with(sign.as_bytes())
    }

    fn add(&mut self, start: usize, level: usize, reading: Reading) {
        self.readings[start][level].push(reading);
    }

    fn new_node(&mut self, kind: u8, signal: u8, operands: Vec<usize>) -> usize {
        self.nodes.push(Node { kind, signal, operands });
        self.nodes.len() - 1
    }

    fn read_leaves(&mut self, start: usize) {
        for leaf in &LEAVES {
            if self.has(start, leaf.sign) {
                let node = self.new_node(leaf.kind, leaf.signal, Vec::new());
                self.add(start, 0, Reading { end: start + leaf.sign.len(), node });
            }
        }
    }

    /// A pair of brackets makes no node.
    fn read_brackets(&mut self, start: usize) {
        if self.text[start] != OPENING {
            return;
        }
        let inner = self.sign_from(start + 1);
        for reading in self.readings[inner].clone().into_iter().flatten() {
            let closing = self.sign_from(reading.end);
            if self.text.get(closing) == Some(&CLOSING) {
                self.add(start, 0, Reading { end: closing + 1, node: reading.node });
            }
        }
    }

    /// A prefix binds tightest: its operand is joined by no binary sign.
    fn read_prefixes(&mut self, start: usize) {
        for prefix in &PREFIXES {
            if !self.has(start, prefix.sign) {
                continue;
            }
            let inner = self.sign_from(start + prefix.sign.len());
            for reading in self.readings[inner][0].clone() {
                let node = self.new_node(prefix.kind, 0, vec![reading.node]);
                self.add(start, 0, Reading { end: reading.end, node });
            }
        }
    }

    /// Both operands hold together more tightly than the sign; on the side to which the sign groups, one
    /// that the same sign joins is an operand too.
    fn read_binary(&mut self, start: usize, binary: &Binary, level: usize) {
        let mut lefts = self.tighter(start, level);
        let mut next = 0;
        while let Some(&left) = lefts.get(next) {
            next += 1;
            let place = self.sign_from(left.end);
            if !self.has(place, binary.sign) {
                continue;
            }
            let behind = self.sign_from(place + binary.sign.len());
            let rights = self.tighter(behind, level + usize::from(binary.groups_right));
            for right in rights {
                let node = self.new_node(binary.kind, 0, vec![left.node, right.node]);
                let joined = Reading { end: right.end, node };
                self.add(start, level, joined);
                if !binary.groups_right {
                    lefts.push(joined);
                }
            }
        }
    }

    /// The readings from `start` on of all levels below `level`.
    fn tighter(&self, start: usize, level: usize) -> Vec<Reading> {
        self.readings[start][..level].concat()
    }
}

/// The length without the spaces at the end.
pub fn trimmed_length(text: &[u8]) -> usize {
    text.iter().rposition(|&byte| byte != SPACE).map_or(0, |place| place + 1)
}
