//! Rule files: a header record, perhaps a mask of the events that can happen, then the
//! formula nodes.

use std::fmt;

use crate::mask::{self, Mask};
use crate::record::{self, Record};
use crate::refusal::Refusal;

pub const HEADER_KIND: u16 = 256;
pub const MASK_KIND: u16 = 257;
pub const NODE_LIMIT: u8 = 64;
pub const TEMPORAL_LIMIT: usize = 7;
/// The highest count of an "at least", lower or upper, whatever the number of signals.
const HIGHEST_COUNT: u8 = 4;

/// Node kinds by name.
pub mod kind {
    pub const FALSE: u8 = 0;
    pub const TRUE: u8 = 1;
    pub const SIGNAL: u8 = 2;
    pub const AT_LEAST: u8 = 3;
    pub const NOT: u8 = 4;
    pub const AND: u8 = 5;
    pub const OR: u8 = 6;
    pub const IMPLIES: u8 = 7;
    pub const EQUALS: u8 = 8;
    pub const EXCLUSIVE_OR: u8 = 9;
    pub const NEXT: u8 = 10;
    pub const UNTIL: u8 = 11;
    pub const EVENTUALLY: u8 = 12;
    pub const ALWAYS: u8 = 13;
}

/// What the body of a node holds.
#[derive(Clone, Copy, Debug, PartialEq, Eq)]
pub enum BodyShape {
    Empty,
    SignalNumber,
    /// A mask and the lower count; in the longer body, the upper count too.
    MaskAndCounts,
    OneOperand,
    TwoOperands,
}

impl BodyShape {
    /// None if no node has this kind.
    pub fn of(node_kind: u16) -> Option<Self> {
        match node_kind {
            0 | 1 => Some(BodyShape::Empty),
            2 => Some(BodyShape::SignalNumber),
            3 => Some(BodyShape::MaskAndCounts),
            4 | 10 | 12 | 13 => Some(BodyShape::OneOperand),
            5..=9 | 11 => Some(BodyShape::TwoOperands),
            _ => None,
        }
    }

    /// The lengths that the body may have, ascending.
    pub fn lengths(self) -> &'static [usize] {
        match self {
            BodyShape::Empty => &[0],
            BodyShape::SignalNumber | BodyShape::OneOperand => &[1],
            BodyShape::MaskAndCounts => &[2, 3],
            BodyShape::TwoOperands => &[2],
        }
    }

    pub fn fits(self, length: usize) -> bool {
        self.lengths().contains(&length)
    }
}

/// A node with its body bytes; of the first two, those that its kind lacks are 0.
#[derive(Clone, Copy, Debug, PartialEq, Eq)]
pub struct FormulaNode {
    pub kind: u8,
    pub first: u8,
    pub second: u8,
    /// The upper count, where the body of an "at least" says it.
    pub third: Option<u8>,
}

impl FormulaNode {
    /// A node whose body has at most two bytes.
    pub const fn new(kind: u8, first: u8, second: u8) -> Self {
        FormulaNode { kind, first, second, third: None }
    }

    /// Of the signals in the mask, at least `least` and at most `most` are on.
    pub const fn between(mask: u8, least: u8, most: u8) -> Self {
        FormulaNode { third: Some(most), ..Self::new(kind::AT_LEAST, mask, least) }
    }

    /// The upper count of an "at least", 4 where the body does not say it.
    pub fn upper(self) -> u8 {
        self.third.unwrap_or(HIGHEST_COUNT)
    }

    pub fn shape(self) -> BodyShape {
        BodyShape::of(self.kind.into()).expect("a node has a known kind")
    }

    pub fn is_temporal(self) -> bool {
        (kind::NEXT..=kind::ALWAYS).contains(&self.kind)
    }

    pub fn to_record(self) -> Vec<u8> {
        let shortest = self.shape().lengths()[0];
        let mut body = [self.first, self.second][..shortest].to_vec();
        body.extend(self.third);
        record::well_sized(self.kind.into(), &body)
    }

    fn has_operands_below(self, number: usize) -> bool {
        let first_is_below = usize::from(self.first) < number;
        let second_is_below = usize::from(self.second) < number;
        match self.shape() {
            BodyShape::OneOperand => first_is_below,
            BodyShape::TwoOperands => first_is_below && second_is_below,
            _ => true,
        }
    }

    fn is_in_range(self, signals: u8) -> bool {
        match self.shape() {
            BodyShape::SignalNumber => self.first < signals,
            BodyShape::MaskAndCounts => {
                let counts_are_low = self.second.max(self.upper()) <= HIGHEST_COUNT;
                self.first < 1 << signals && counts_are_low
            }
            _ => true,
        }
    }
}

/// Kind, two body bytes and the upper count, which is 0 where the kind has none.
impl fmt::Display for FormulaNode {
    fn fmt(&self, out: &mut fmt::Formatter<'_>) -> fmt::Result {
        let upper = if self.kind == kind::AT_LEAST { self.upper() } else { 0 };
        write!(out, "{}.{}.{}.{upper}", self.kind, self.first, self.second)
    }
}

/// A rule that was read without a refusal. Its last node is the rule itself.
#[derive(Clone, Debug, PartialEq, Eq)]
pub struct Rule {
    pub signals: u8,
    /// The events that can happen, where a record says it.
    pub mask: Option<Mask>,
    pub nodes: Vec<FormulaNode>,
}

impl Rule {
    /// A rule without a record of its mask.
    pub fn new(signals: u8, nodes: Vec<FormulaNode>) -> Self {
        Rule { signals, mask: None, nodes }
    }

    pub fn with_mask(self, mask: Mask) -> Self {
        Rule { mask: Some(mask), ..self }
    }

    pub fn without_mask(self) -> Self {
        Rule { mask: None, ..self }
    }

    /// The mask of the events that can happen: all, where no record says it.
    pub fn possible(&self) -> Mask {
        self.mask.unwrap_or(mask::full(self.signals))
    }

    /// The events that can happen, ascending.
    pub fn events(&self) -> Vec<u8> {
        mask::events(self.possible()).collect()
    }

    pub fn read(file: &[u8]) -> Result<Rule, Refusal> {
        let header = Record::read(file, 0)?;
        let (signals, node_count) = read_header(&header)?;
        let mut rule = Rule::new(signals, Vec::new());
        let mut place = header.end();
        // As there is a node at least, a second record is due.
        let second = Record::read(file, place)?;
        if second.kind == MASK_KIND {
            rule.mask = Some(read_mask(&second, signals)?);
            place = second.end();
        }
        for _ in 0..node_count {
            let record = Record::read(file, place)?;
            let node = rule.read_next_node(&record)?;
            rule.nodes.push(node);
            place = record.end();
        }
        if place < file.len() {
            return Err(Refusal::new(9, place));
        }
        Ok(rule)
    }

    /// Judges the record as the node that follows those already read.
    fn read_next_node(&self, record: &Record) -> Result<FormulaNode, Refusal> {
        let refuse = |number| Err(Refusal::new(number, record.start));
        let Some(shape) = BodyShape::of(record.kind) else {
            return refuse(3);
        };
        if !shape.fits(record.body.len()) {
            return refuse(2);
        }
        let body_byte = |index| record.body.get(index).copied();
        let node = FormulaNode {
            kind: record.kind as u8,
            first: body_byte(0).unwrap_or(0),
            second: body_byte(1).unwrap_or(0),
            third: body_byte(2),
        };
        if !node.has_operands_below(self.nodes.len()) {
            return refuse(6);
        }
        if !node.is_in_range(self.signals) {
            return refuse(7);
        }
        if node.is_temporal() && temporal_count(&self.nodes) == TEMPORAL_LIMIT {
            return refuse(8);
        }
        Ok(node)
    }

    pub fn to_bytes(&self) -> Vec<u8> {
        let node_count = u8::try_from(self.nodes.len()).expect("a rule has at most 64 nodes");
        let mut bytes = header_record(self.signals, node_count);
        bytes.extend(self.mask.into_iter().flat_map(mask_record));
        bytes.extend(self.nodes.iter().flat_map(|node| node.to_record()));
        bytes
    }
}

/// Signals, the mask of the events that can happen, nodes, and each node.
impl fmt::Display for Rule {
    fn fmt(&self, out: &mut fmt::Formatter<'_>) -> fmt::Result {
        write!(out, "rule {} {} {}:", self.signals, self.possible(), self.nodes.len())?;
        self.nodes.iter().try_for_each(|node| write!(out, " {node}"))
    }
}

/// The number of signals and the number of nodes.
fn read_header(header: &Record) -> Result<(u8, u8), Refusal> {
    let refuse = |number| Err(Refusal::new(number, 0));
    if header.kind != HEADER_KIND {
        return refuse(3);
    }
    let &[signals, node_count] = header.body else {
        return refuse(2);
    };
    if !(1..=4).contains(&signals) {
        return refuse(4);
    }
    if !(1..=NODE_LIMIT).contains(&node_count) {
        return refuse(5);
    }
    Ok((signals, node_count))
}

/// The mask of the events that can happen.
fn read_mask(record: &Record, signals: u8) -> Result<Mask, Refusal> {
    let refuse = |number| Err(Refusal::new(number, record.start));
    let &[low, high] = record.body else {
        return refuse(2);
    };
    let mask = Mask::from_le_bytes([low, high]);
    if mask & !mask::full(signals) != 0 {
        return refuse(7);
    }
    if mask == 0 {
        return refuse(17);
    }
    Ok(mask)
}

pub fn header_record(signals: u8, node_count: u8) -> Vec<u8> {
    record::well_sized(HEADER_KIND, &[signals, node_count])
}

pub fn mask_record(mask: Mask) -> Vec<u8> {
    record::well_sized(MASK_KIND, &mask.to_le_bytes())
}

pub fn temporal_count(nodes: &[FormulaNode]) -> usize {
    nodes.iter().filter(|node| node.is_temporal()).count()
}

#[cfg(test)]
mod tests {
    use super::*;

    const P3: [u8; 11] = [4, 0, 0, 1, 1, 1, 3, 0, 2, 0, 0];

    fn chain_of_nexts(count: usize) -> Rule {
        let mut nodes = vec![FormulaNode::new(kind::SIGNAL, 0, 0)];
        nodes.extend((0..count).map(|below| FormulaNode::new(kind::NEXT, below as u8, 0)));
        Rule::new(1, nodes)
    }

    fn refusal(file: &[u8]) -> (u8, usize) {
        let refusal = Rule::read(file).unwrap_err();
        (refusal.number, refusal.place)
    }

    #[test]
    fn reads_the_printed_bytes_of_p3() {
        let rule = Rule::read(&P3).unwrap();
        assert_eq!(rule.to_string(), "rule 1 3 1: 2.0.0.0");
        assert_eq!(rule.to_bytes(), P3);
    }

    #[test]
    fn takes_seven_nexts_and_refuses_the_eighth() {
        let seven = chain_of_nexts(7);
        assert_eq!(Rule::read(&seven.to_bytes()), Ok(seven.clone()));
        let place_of_the_eighth = seven.to_bytes().len();
        assert_eq!(refusal(&chain_of_nexts(8).to_bytes()), (8, place_of_the_eighth));
    }

    #[test]
    fn refuses_an_operand_that_is_not_earlier() {
        let nodes = vec![FormulaNode::new(kind::SIGNAL, 0, 0), FormulaNode::new(kind::NOT, 1, 0)];
        assert_eq!(refusal(&Rule::new(1, nodes).to_bytes()), (6, 11));
    }

    #[test]
    fn refuses_each_fault_in_the_header() {
        assert_eq!(refusal(&[]), (1, 0));
        assert_eq!(refusal(&[1, 0]), (2, 0));
        assert_eq!(refusal(&[5, 0, 0, 2, 1, 3, 0]), (3, 0));
        assert_eq!(refusal(&[5, 0, 0, 1, 1, 1, 0]), (2, 0));
        assert_eq!(refusal(&header_record(0, 0)), (4, 0));
        assert_eq!(refusal(&header_record(5, 1)), (4, 0));
        assert_eq!(refusal(&header_record(1, 0)), (5, 0));
        assert_eq!(refusal(&header_record(4, 65)), (5, 0));
    }

    #[test]
    fn refuses_missing_nodes_and_bytes_too_many() {
        assert_eq!(refusal(&P3[..6]), (1, 6));
        assert_eq!(refusal(&P3[..10]), (1, 6));
        assert_eq!(refusal(&[&P3[..], &[0]].concat()), (9, 11));
    }

    /// A file over two signals whose only record is an "at least" with this body.
    fn at_least(body: &[u8]) -> Vec<u8> {
        [header_record(2, 1), record::well_sized(3, body)].concat()
    }

    #[test]
    fn reads_an_at_least_with_and_without_an_upper_count() {
        let read_back = |file: &[u8]| {
            let rule = Rule::read(file).unwrap();
            assert_eq!(rule.to_bytes(), file);
            rule
        };
        let exactly_one = read_back(&[4, 0, 0, 1, 2, 1, 5, 0, 3, 0, 3, 1, 1]);
        assert_eq!(exactly_one.nodes, [FormulaNode::between(3, 1, 1)]);
        assert_eq!(exactly_one.to_string(), "rule 2 15 1: 3.3.1.1");
        let without = read_back(&[4, 0, 0, 1, 2, 1, 4, 0, 3, 0, 3, 1]);
        let with = read_back(&[4, 0, 0, 1, 2, 1, 5, 0, 3, 0, 3, 1, 4]);
        assert_eq!(without.to_string(), "rule 2 15 1: 3.3.1.4");
        assert_eq!(with.to_string(), "rule 2 15 1: 3.3.1.4");
        assert_ne!(without, with);
    }

    #[test]
    fn an_at_least_has_two_bytes_or_three() {
        for length in [2, 3] {
            assert!(Rule::read(&at_least(&vec![0; length])).is_ok());
        }
        for length in [0, 1, 4, 5, 254, 255, 256, 257, 258, 259] {
            assert_eq!(refusal(&at_least(&vec![0; length])), (2, 6), "{length}");
        }
        let three = vec![0; 3];
        for kind in (0..=13).filter(|&kind| kind != 3) {
            let file = [header_record(2, 1), record::well_sized(kind, &three)].concat();
            assert_eq!(refusal(&file), (2, 6), "kind {kind}");
        }
    }

    #[test]
    fn refuses_signal_mask_and_count_out_of_range() {
        let signal = |number| [header_record(2, 1), record::well_sized(2, &[number])].concat();
        assert!(Rule::read(&signal(1)).is_ok());
        assert_eq!(refusal(&signal(2)), (7, 6));
        assert!(Rule::read(&at_least(&[3, 4])).is_ok());
        assert_eq!(refusal(&at_least(&[4, 0])), (7, 6));
        assert_eq!(refusal(&at_least(&[0, 5])), (7, 6));
    }

    /// An upper count below the lower one is well-formed, and so is one above the signals.
    #[test]
    fn refuses_an_upper_count_above_four() {
        for body in [[3, 0, 0], [3, 4, 0], [0, 0, 4], [3, 2, 1], [1, 1, 4], [3, 4, 4]] {
            assert!(Rule::read(&at_least(&body)).is_ok(), "{body:?}");
        }
        let wrong = [[3, 1, 5], [3, 0, 255], [0, 4, 6], [3, 5, 4], [0, 255, 0], [4, 1, 1]];
        for body in wrong.into_iter().chain([[4, 5, 5], [255; 3]]) {
            assert_eq!(refusal(&at_least(&body)), (7, 6), "{body:?}");
        }
        assert_eq!(refusal(&at_least(&[3, 1, 5])[..12]), (1, 6));
        assert_eq!(refusal(&at_least(&[255; 4])), (2, 6));
    }

    /// The bytes are those of p over one signal, with a mask of event 1 alone.
    #[test]
    fn reads_a_mask_that_stands_second() {
        let file = [4, 0, 0, 1, 1, 1, 4, 0, 1, 1, 2, 0, 3, 0, 2, 0, 0];
        let rule = Rule::read(&file).unwrap();
        assert_eq!((rule.mask, rule.events()), (Some(2), vec![1]));
        assert_eq!(rule.to_string(), "rule 1 2 1: 2.0.0.0");
        assert_eq!(rule.to_bytes(), file);
        let full = Rule::read(&chain_of_nexts(0).with_mask(3).to_bytes()).unwrap();
        assert_eq!(full.to_string(), chain_of_nexts(0).to_string());
        assert_ne!(full, chain_of_nexts(0));
    }

    /// A file over so many signals, with these bytes for its second record, and p.
    fn second(signals: u8, record: &[u8]) -> Vec<u8> {
        let p = record::well_sized(2, &[0]);
        [header_record(signals, 1), record.to_vec(), p].concat()
    }

    #[test]
    fn a_mask_is_judged_by_its_length_then_by_its_bits() {
        for length in (0..=5).chain([254, 255, 256, 258]).filter(|&length| length != 2) {
            let record = record::well_sized(MASK_KIND, &vec![255; length]);
            assert_eq!(refusal(&second(1, &record)), (2, 6), "{length}");
        }
        for (signals, width) in [(1, 2), (2, 4), (3, 8), (4, 16)] {
            for bit in 0..16 {
                let read = Rule::read(&second(signals, &mask_record(1 << bit)));
                let expected = if bit < width { None } else { Some(Refusal::new(7, 6)) };
                assert_eq!(read.err(), expected, "{signals} {bit}");
            }
            assert_eq!(refusal(&second(signals, &mask_record(0))), (17, 6));
            assert!(Rule::read(&second(signals, &mask_record(mask::full(signals)))).is_ok());
        }
        assert_eq!(refusal(&second(2, &mask_record(0x001f))), (7, 6));
        assert_eq!(refusal(&second(2, &record::claiming(1, MASK_KIND, &[7, 0]))), (2, 6));
    }

    #[test]
    fn a_mask_stands_second_and_nowhere_else() {
        let (mask, p) = (&mask_record(1)[..], &record::well_sized(2, &[0])[..]);
        let (one, two) = (&header_record(1, 1)[..], &header_record(1, 2)[..]);
        let refused = |records: &[&[u8]]| refusal(&records.concat());
        assert_eq!(refused(&[mask, one, p]), (3, 0));
        assert_eq!(refused(&[one, mask, mask, p]), (3, 12));
        assert_eq!(refused(&[two, p, mask, p]), (3, 11));
        assert_eq!(refused(&[two, mask, p, mask, p]), (3, 17));
        assert_eq!(refused(&[one, p, mask]), (9, 11));
        assert_eq!(refused(&[one, mask, p, mask]), (9, 17));
        // It is no node.
        assert!(Rule::read(&[one, mask, p].concat()).is_ok());
        assert_eq!(refused(&[one, mask]), (1, 12));
        assert_eq!(refused(&[two, mask, p]), (1, 17));
    }
}
