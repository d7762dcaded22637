//! Faulty records of rule files, each with the refusal number due to it.

use super::rule_samples::random_nodes;
use crate::mask::{self, Mask};
use crate::random_masks::any_mask;
use crate::record::{claiming, well_sized, Record};
use crate::rng::Rng;
use crate::rule::{header_record, kind, mask_record, temporal_count, BodyShape, FormulaNode, Rule};
use crate::rule::{HEADER_KIND, MASK_KIND, NODE_LIMIT, TEMPORAL_LIMIT};

const ONE_OPERAND: [u8; 4] = [kind::NOT, kind::NEXT, kind::EVENTUALLY, kind::ALWAYS];
const TWO_OPERANDS: [u8; 6] =
    [kind::AND, kind::OR, kind::IMPLIES, kind::EQUALS, kind::EXCLUSIVE_OR, kind::UNTIL];

/// A record that must be refused by this number. Refusal 1 is due only if
/// the record ends the file.
#[derive(Clone, Debug)]
pub struct Fault {
    pub number: u8,
    pub record: Vec<u8>,
}

fn fault(number: u8, record: Vec<u8>) -> Fault {
    Fault { number, record }
}

/// The good beginning of a rule file, in which at least one node is still due.
pub struct RuleStart {
    pub signals: u8,
    pub node_count: u8,
    pub mask: Option<Mask>,
    pub nodes: Vec<FormulaNode>,
}

impl RuleStart {
    fn random(rng: &mut Rng, signals: u8, node_count: u8, given: usize, temporal: usize) -> Self {
        let nodes = random_nodes(rng, signals, given, temporal);
        RuleStart { signals, node_count, mask: None, nodes }
    }

    /// The same with a mask, which any may be.
    fn masked(self, rng: &mut Rng) -> Self {
        RuleStart { mask: Some(any_mask(rng, self.signals)), ..self }
    }

    /// Whether what comes next is the second record, where a mask may stand.
    fn takes_mask(&self) -> bool {
        self.mask.is_none() && self.nodes.is_empty()
    }

    /// The number of the node that comes next.
    fn next_number(&self) -> u8 {
        self.nodes.len() as u8
    }

    fn is_full_of_temporal(&self) -> bool {
        temporal_count(&self.nodes) == TEMPORAL_LIMIT
    }

    pub fn to_bytes(&self) -> Vec<u8> {
        let mut bytes = header_record(self.signals, self.node_count);
        bytes.extend(self.mask.into_iter().flat_map(mask_record));
        bytes.extend(self.nodes.iter().flat_map(|node| node.to_record()));
        bytes
    }
}

/// Starts of several sizes, with and without room for a temporal node, some with a mask.
pub fn starts(rng: &mut Rng) -> Vec<RuleStart> {
    vec![
        RuleStart::random(rng, 1, 1, 0, 0),
        RuleStart::random(rng, 2, 3, 2, 1),
        RuleStart::random(rng, 3, 20, 5, 2),
        RuleStart::random(rng, 1, 9, 8, TEMPORAL_LIMIT),
        RuleStart::random(rng, 3, 40, 20, TEMPORAL_LIMIT),
        RuleStart::random(rng, 4, NODE_LIMIT, 63, TEMPORAL_LIMIT),
        RuleStart::random(rng, 2, 1, 0, 0).masked(rng),
        RuleStart::random(rng, 3, 12, 8, TEMPORAL_LIMIT).masked(rng),
    ]
}

/// Starts that are a header alone, for each number of signals.
pub fn headers() -> Vec<RuleStart> {
    let counts = [1, 3, 64, 2];
    let start =
        |(signals, node_count)| RuleStart { signals, node_count, mask: None, nodes: Vec::new() };
    (1..=4).zip(counts).map(start).collect()
}

/// Refusal 1: the file ends here, before or within a record.
pub fn cut_records() -> Vec<Fault> {
    let records: [&[u8]; 20] = [
        &[],
        &[0],
        &[1],
        &[2],
        &[255],
        &[2, 0],
        &[2, 0, 0],
        &[3, 0, 2, 0],
        &[4, 0, 5, 0, 0],
        &[4, 0, 3, 0],
        &[5, 0],
        &[5, 0, 3, 0],
        &[5, 0, 3, 0, 0],
        &[5, 0, 3, 0, 0, 0],
        &[3, 0],
        &[0, 1, 0, 0],
        &[1, 1, 1, 0, 0, 0],
        &[4, 1, 5, 0, 0, 0],
        &[5, 1, 3, 0, 0, 0, 0],
        &[255, 255, 0, 0, 0, 0],
    ];
    records.iter().map(|record| fault(1, record.to_vec())).collect()
}

/// Refusal 2: length below 2, or not that of the kind.
pub fn wrong_lengths() -> Vec<Fault> {
    let mut faults = vec![
        fault(2, vec![0, 0]),
        fault(2, vec![1, 0]),
        fault(2, vec![0, 0, 0, 0]),
        fault(2, vec![1, 0, 2, 0, 0]),
    ];
    for kind in 0..=13 {
        let shape = BodyShape::of(kind).expect("a node has this kind");
        let same_low_byte = shape.lengths().iter().map(|right| right + 256);
        let wrong = (0..=5).chain(same_low_byte).filter(|&length| !shape.fits(length));
        faults.extend(wrong.map(|length| fault(2, well_sized(kind, &vec![0; length]))));
    }
    // Lengths of 256 and 257 have low bytes below 2.
    faults.extend([254, 255].map(|length| fault(2, well_sized(0, &vec![0; length]))));
    faults
}

/// Refusal 3: no node has the kind. A mask, good or not, is such a record wherever it does
/// not stand second.
pub fn unknown_kinds(start: &RuleStart) -> Vec<Fault> {
    let low = [14, 15, 16, 255];
    let high = [258, 0x0102, 0x0103, 0x0200, 0x0201, 0x0300, 0x0303, 0x0d00, 0x0d0d, 0x8000, 65535];
    let mut faults = Vec::new();
    for kind in low.into_iter().chain([HEADER_KIND]).chain(high) {
        faults.extend((0..=3).map(|length| fault(3, well_sized(kind, &vec![0; length]))));
    }
    if !start.takes_mask() {
        let masks = [0, 1, 2, 3, mask::full(start.signals), 0x8000, 65535];
        faults.extend(masks.map(|mask| fault(3, mask_record(mask))));
        let lengths = [0, 1, 3, 4];
        faults.extend(lengths.map(|length| fault(3, well_sized(MASK_KIND, &vec![0; length]))));
    }
    faults
}

/// A second record that is a mask, or like one, and is refused.
pub fn mask_faults(signals: u8) -> Vec<Fault> {
    [mask_cuts(), mask_lengths(), masks_too_high(signals), no_masks(), double_mask_faults(signals)]
        .concat()
}

/// Refusal 1: the file ends within the mask.
fn mask_cuts() -> Vec<Fault> {
    let whole = mask_record(1);
    let cuts = (0..whole.len()).map(|length| fault(1, whole[..length].to_vec()));
    let longer = [5, 6, 260, 65535].map(|length| fault(1, claiming(length, MASK_KIND, &[1, 0])));
    cuts.chain(longer).collect()
}

/// Refusal 2: no mask has the length.
fn mask_lengths() -> Vec<Fault> {
    let mut faults: Vec<Fault> =
        [0, 1].map(|length| fault(2, claiming(length, MASK_KIND, &[1, 0]))).into();
    let lengths = [0, 1, 3, 4, 5, 254, 255, 256, 258];
    faults.extend(lengths.map(|length| fault(2, well_sized(MASK_KIND, &vec![1; length]))));
    faults
}

/// Refusal 7: a bit at or above 2^P, alone or beside others; none with four signals.
fn masks_too_high(signals: u8) -> Vec<Fault> {
    let full = mask::full(signals);
    let bits = (0..16).map(|bit| 1 << bit);
    let alone = bits.filter(|bit| full & bit == 0);
    let all = alone.clone().chain(alone.map(|bit| bit | full)).chain([!full, 65535, !1, 0xff00]);
    let too_high = all.filter(|mask| mask & !full != 0);
    too_high.map(|mask| fault(7, mask_record(mask))).collect()
}

/// Kinds near the mask's: 3, or 2 for the kind that has its low byte.
fn no_masks() -> Vec<Fault> {
    let kinds = [255, HEADER_KIND, 258, 512, 513, 769, 0x8101, 0xff01];
    let near = kinds.map(|kind| fault(3, well_sized(kind, &[1, 0])));
    near.into_iter().chain([fault(2, well_sized(kind::TRUE.into(), &[1, 0]))]).collect()
}

/// Two faults in a mask, and 17 alone.
fn double_mask_faults(signals: u8) -> Vec<Fault> {
    let mut faults = vec![
        fault(17, mask_record(0)),
        // Too short a length, and no event possible.
        fault(2, claiming(1, MASK_KIND, &[0, 0])),
        // Fewer bytes than the length says, and no event possible, or a length that no mask has.
        fault(1, claiming(4, MASK_KIND, &[0])),
        fault(1, claiming(5, MASK_KIND, &[0, 0])),
        fault(1, claiming(65535, MASK_KIND, &[255, 255])),
    ];
    // The wrong length, and no event possible or, but for four signals, a bit too high.
    for length in [1, 3, 4] {
        faults.extend([0, 255].map(|byte| fault(2, well_sized(MASK_KIND, &vec![byte; length]))));
    }
    // A bit too high, and no event possible.
    let lowest_too_high = 1u32 << (1 << signals);
    faults.extend(Mask::try_from(lowest_too_high).ok().map(|mask| fault(7, mask_record(mask))));
    faults
}

/// Refusal 6: an operand not below the node's own number, in each place.
pub fn late_operands(start: &RuleStart) -> Vec<Fault> {
    let own = start.next_number();
    let near = own.saturating_sub(1);
    let mut faults = Vec::new();
    for late in [own, own + 1, 255] {
        for kind in ONE_OPERAND {
            faults.push(fault(6, well_sized(kind.into(), &[late])));
        }
        for kind in TWO_OPERANDS {
            let bodies = [[late, near], [near, late], [late, late]];
            faults.extend(bodies.map(|body| fault(6, well_sized(kind.into(), &body))));
        }
    }
    faults
}

/// Refusal 7: signal, mask or count out of range.
pub fn out_of_range(start: &RuleStart) -> Vec<Fault> {
    let signals = start.signals;
    let mut faults: Vec<Fault> = [signals, signals + 1, 128, 255]
        .map(|signal| fault(7, well_sized(kind::SIGNAL.into(), &[signal])))
        .to_vec();
    faults.extend(counts_out_of_range(start));
    faults
}

/// Refusal 7 of an "at least": mask, lower or upper count out of range, one or several of them, in
/// bodies of both lengths.
pub fn counts_out_of_range(start: &RuleStart) -> Vec<Fault> {
    let full_mask = (1 << start.signals) - 1;
    let mut bodies = vec![vec![full_mask + 1, 5], vec![255, 255], vec![0, 5]];
    for mask in [full_mask + 1, full_mask + 2, 128, 255] {
        bodies.extend([vec![mask, 1], vec![mask, 1, 1], vec![mask, 0, 4]]);
    }
    for count in [5, 6, 128, 255] {
        bodies.extend([vec![full_mask, count], vec![full_mask, count, 4], vec![0, count, 0]]);
        bodies.extend([0, 1, 4].map(|least| vec![full_mask, least, count]));
        bodies.extend([vec![0, 0, count], vec![full_mask, count, count]]);
        bodies.extend([vec![full_mask + 1, count, 4], vec![full_mask + 1, 0, count]]);
        bodies.push(vec![255, count, count]);
    }
    bodies.iter().map(|body| fault(7, well_sized(kind::AT_LEAST.into(), body))).collect()
}

/// Refusal 8: a good temporal node after seven; none if there is still room.
pub fn eighth_temporal(start: &RuleStart) -> Vec<Fault> {
    if !start.is_full_of_temporal() {
        return Vec::new();
    }
    let near = start.next_number() - 1;
    let bodies: [(u8, &[u8]); 9] = [
        (kind::NEXT, &[near]),
        (kind::NEXT, &[0]),
        (kind::UNTIL, &[near, 0]),
        (kind::UNTIL, &[0, near]),
        (kind::UNTIL, &[0, 0]),
        (kind::EVENTUALLY, &[near]),
        (kind::EVENTUALLY, &[0]),
        (kind::ALWAYS, &[near]),
        (kind::ALWAYS, &[0]),
    ];
    bodies.iter().map(|&(kind, body)| fault(8, well_sized(kind.into(), body))).collect()
}

/// Two faults in one node record; the number is that of the earlier check.
pub fn double_faults(start: &RuleStart) -> Vec<Fault> {
    let late = start.next_number();
    let mut faults = vec![
        // Too short a length, and fewer bytes than it says or no known kind.
        fault(2, vec![1, 0]),
        fault(2, claiming(0, 14, &[])),
        fault(2, claiming(1, 65535, &[0, 0])),
        // Fewer bytes than the length says, and a later check.
        fault(1, claiming(4, 14, &[0])),
        fault(1, claiming(65535, 65535, &[0])),
        fault(1, claiming(5, kind::SIGNAL.into(), &[0])),
        fault(1, claiming(3, kind::TRUE.into(), &[])),
        fault(1, claiming(4, kind::AND.into(), &[late])),
        fault(1, claiming(4, kind::UNTIL.into(), &[0])),
        // No known kind, and a length that no node has.
        fault(3, well_sized(14, &[late; 4])),
        fault(3, well_sized(HEADER_KIND, &[late; 9])),
        // The wrong length, and a signal out of range.
        fault(2, well_sized(kind::SIGNAL.into(), &[255, 255])),
        fault(2, well_sized(kind::SIGNAL.into(), &[255; 3])),
    ];
    faults.extend(double_count_faults());
    // The wrong length, and a late operand; in a full start also too many temporal nodes.
    for kind in ONE_OPERAND {
        faults.push(fault(2, well_sized(kind.into(), &[late, late])));
    }
    for kind in TWO_OPERANDS {
        faults.push(fault(2, well_sized(kind.into(), &[late])));
        faults.push(fault(2, well_sized(kind.into(), &[late, late, late])));
    }
    faults
}

/// Two faults in one record of an "at least", or of a kind whose low byte is the same.
fn double_count_faults() -> Vec<Fault> {
    let at_least = kind::AT_LEAST.into();
    vec![
        // Too short a length, and mask and counts out of range.
        fault(2, claiming(1, at_least, &[255; 3])),
        // Fewer bytes than the length says, and out of range those that are there.
        fault(1, claiming(4, at_least, &[255])),
        fault(1, claiming(5, at_least, &[255])),
        fault(1, claiming(5, at_least, &[255, 255])),
        fault(1, claiming(5, at_least, &[0, 5])),
        // Fewer bytes than the length says, which no "at least" has.
        fault(1, claiming(3, at_least, &[])),
        fault(1, claiming(6, at_least, &[0, 0, 0])),
        fault(1, claiming(6, at_least, &[255; 3])),
        fault(1, claiming(261, at_least, &[0, 0, 5])),
        // No known kind, and mask and counts out of range.
        fault(3, well_sized(0x0103, &[255; 2])),
        fault(3, well_sized(0x0103, &[255; 3])),
        fault(3, well_sized(0x0300, &[255; 4])),
        // The wrong length, and mask or counts out of range.
        fault(2, well_sized(at_least, &[255])),
        fault(2, well_sized(at_least, &[255; 4])),
        fault(2, well_sized(at_least, &[255; 5])),
        fault(2, well_sized(at_least, &[0, 0, 5, 0])),
        fault(2, well_sized(at_least, &[255; 259])),
    ]
}

/// Every fault that a node record can have after this start.
pub fn node_faults(start: &RuleStart) -> Vec<Fault> {
    [
        cut_records(),
        wrong_lengths(),
        unknown_kinds(start),
        late_operands(start),
        out_of_range(start),
        eighth_temporal(start),
        double_faults(start),
    ]
    .concat()
}

/// Every fault that the next record can have, also as a mask where one may stand.
pub fn next_faults(start: &RuleStart) -> Vec<Fault> {
    let masks = if start.takes_mask() { mask_faults(start.signals) } else { Vec::new() };
    [node_faults(start), masks].concat()
}

/// What a file is refused for, if it is its mask, or a record of a mask in another place.
pub fn refused_by_mask(file: &[u8]) -> Option<&'static str> {
    let refusal = Rule::read(file).err()?;
    let record = Record::read(file, refusal.place).ok()?;
    match refusal.number {
        _ if record.kind != MASK_KIND => None,
        2 => Some("2 by a mask's length"),
        3 => Some("3 by a mask's place"),
        7 => Some("7 by the mask"),
        9 => Some("9 by a mask's place"),
        17 => Some("17 by the mask"),
        _ => None,
    }
}

/// Faults of the header record, single and double.
pub fn header_faults() -> Vec<Fault> {
    [header_cuts(), header_lengths(), header_kinds(), header_numbers(), double_header_faults()]
        .concat()
}

fn header_cuts() -> Vec<Fault> {
    let whole = header_record(1, 1);
    let cuts = (0..whole.len()).map(|length| fault(1, whole[..length].to_vec()));
    cuts.chain(cut_records()).collect()
}

fn header_lengths() -> Vec<Fault> {
    let mut faults = vec![fault(2, vec![0, 0]), fault(2, claiming(1, HEADER_KIND, &[1, 1]))];
    let lengths = [0, 1, 3, 4, 254, 255, 258];
    faults.extend(lengths.map(|length| fault(2, well_sized(HEADER_KIND, &vec![1; length]))));
    faults
}

fn header_kinds() -> Vec<Fault> {
    let kinds = (0..=13).chain([14, 255, MASK_KIND, 258, 512, 513, 0x8000, 0xff00, 65535]);
    let masks = [0, 1, 65535].map(|mask| fault(3, mask_record(mask)));
    kinds.map(|kind| fault(3, well_sized(kind, &[1, 1]))).chain(masks).collect()
}

fn header_numbers() -> Vec<Fault> {
    let mut faults = Vec::new();
    for signals in [0, 5, 6, 8, 16, 128, 255] {
        faults.extend([1, 64].map(|count| fault(4, header_record(signals, count))));
    }
    for node_count in [0, 65, 66, 128, 255] {
        faults.extend((1..=4).map(|signals| fault(5, header_record(signals, node_count))));
    }
    faults
}

fn double_header_faults() -> Vec<Fault> {
    let mut faults = vec![
        // Too short a length, and fewer bytes than it says or another kind.
        fault(2, vec![1, 0]),
        fault(2, claiming(0, 255, &[1, 1])),
        fault(2, claiming(1, 65535, &[0, 0])),
        // Fewer bytes than the length says, and a later check.
        fault(1, claiming(4, 255, &[1])),
        fault(1, claiming(5, HEADER_KIND, &[1, 1])),
        fault(1, claiming(4, HEADER_KIND, &[0])),
        fault(1, claiming(9, HEADER_KIND, &[0, 0])),
        // Another kind, and a length or number that is wrong too.
        fault(3, well_sized(255, &[1, 1, 1])),
        fault(3, well_sized(512, &[1, 3, 0])),
        fault(3, well_sized(0, &[])),
        fault(3, well_sized(257, &[0, 0])),
    ];
    // The wrong length, and P or N out of range.
    let bodies: [&[u8]; 6] = [&[0], &[5], &[0, 0, 0], &[5, 1, 0], &[1, 65, 0], &[255; 4]];
    faults.extend(bodies.map(|body| fault(2, well_sized(HEADER_KIND, body))));
    for signals in [0, 5, 255] {
        faults.extend([0, 65, 255].map(|count| fault(4, header_record(signals, count))));
    }
    faults
}
