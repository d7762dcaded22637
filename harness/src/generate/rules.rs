//! Rule files, good and faulty.

use oracle::random_masks::any_mask;
use oracle::random_rules::Shape;
use oracle::record::well_sized;
use oracle::rng::Rng;
use oracle::rule::{header_record, mask_record, temporal_count, BodyShape, Rule};
use oracle::rule::{NODE_LIMIT, TEMPORAL_LIMIT};
use oracle::vectors::mask_samples;
use oracle::vectors::rule_faults::{self, Fault};
use oracle::vectors::rule_samples as samples;

use super::{planned, spoil, Made};

/// The most temporal nodes of a rule that is quickly built.
const FEW_TEMPORAL: usize = 3;

pub struct Rules {
    known: Vec<Vec<u8>>,
    large: Vec<Vec<u8>>,
    header_faults: Vec<Fault>,
    /// The good beginnings of files, each with the faulty records that can follow.
    starts: Vec<(Vec<u8>, Vec<Fault>)>,
}

impl Rules {
    pub fn new(rng: &mut Rng) -> Self {
        let is_large = |rule: &Rule| temporal_count(&rule.nodes) > FEW_TEMPORAL;
        let all = [samples::known_rules(), mask_samples::masked_rules()].concat();
        let (large, known): (Vec<_>, Vec<_>) = all.into_iter().partition(is_large);
        let to_bytes = |rules: Vec<Rule>| rules.iter().map(Rule::to_bytes).collect();
        let starts = (0..8).flat_map(|_| rule_faults::starts(rng));
        let starts = starts.chain((0..4).flat_map(|_| rule_faults::headers()));
        let with_faults = starts.map(|start| (start.to_bytes(), rule_faults::next_faults(&start)));
        Rules {
            known: to_bytes([known, vec![samples::nexts(8)]].concat()),
            large: to_bytes(large),
            header_faults: rule_faults::header_faults(),
            starts: with_faults.collect(),
        }
    }

    /// A rule file of any kind but the large ones.
    pub fn any(&self, rng: &mut Rng) -> Made {
        match rng.below(100) {
            0..=3 => Made::new("known", rng.pick(&self.known).clone()),
            4..=49 => quick(rng),
            50..=69 => Made::new("fault", self.faulty(rng)),
            70..=74 => Made::new("header fault", self.faulty_header(rng)),
            75..=91 => Made::new("changed", self.changed(rng)),
            92..=95 => Made::new("records", random_records(rng)),
            _ => Made::new("noise", noise(rng)),
        }
    }

    /// A good rule whose building can take long, also where it ends in refusal 11.
    pub fn large(&self, rng: &mut Rng) -> Made {
        let signals = 1 + rng.byte_below(4);
        let delay = rng.between(FEW_TEMPORAL, TEMPORAL_LIMIT - 1);
        let shape = Shape { signals: 1..=4, temporal: FEW_TEMPORAL..=TEMPORAL_LIMIT, nodes: 24 };
        let (origin, rule) = match rng.below(10) {
            0 => return Made::new("large known", rng.pick(&self.large).clone()),
            1 => ("large known", samples::shared_nexts(delay as u8)),
            2 => ("large loose", samples::random_rule(rng)),
            3..=4 => ("large random", shape.draw(rng)),
            5..=6 => ("recurring", planned::recurring(rng)),
            _ => ("large delayed", planned::delayed(rng, signals, delay)),
        };
        perhaps_masked(rng, origin, "large masked", rule)
    }

    fn faulty(&self, rng: &mut Rng) -> Vec<u8> {
        let (beginning, faults) = rng.pick(&self.starts);
        let number = *rng.pick(&[1, 2, 3, 4, 5, 6, 7, 8, 17]);
        let of_number: Vec<&Fault> = faults.iter().filter(|fault| fault.number == number).collect();
        let fault = match of_number[..] {
            [] => rng.pick(faults),
            _ => rng.pick(&of_number),
        };
        let mut file = [beginning.as_slice(), &fault.record].concat();
        if rng.chance(60) {
            file.extend(rest(rng));
        }
        file
    }

    fn faulty_header(&self, rng: &mut Rng) -> Vec<u8> {
        let mut file = rng.pick(&self.header_faults).record.clone();
        if rng.chance(60) {
            file.extend(&quick(rng).bytes[6..]);
        }
        file
    }

    fn changed(&self, rng: &mut Rng) -> Vec<u8> {
        let mut file = match rng.below(5) {
            0 => rng.pick(&self.known).clone(),
            _ => quick(rng).bytes,
        };
        match rng.below(9) {
            0 => file[5] = file[5].wrapping_add(rng.byte_below(3)).wrapping_sub(1),
            1 => file.extend(rest(rng)),
            8 => insert_mask(rng, &mut file),
            2 if rng.below(100) == 0 => file.extend(vec![rng.byte_below(256); 70_000]),
            _ => spoil::in_place(rng, &mut file),
        }
        file
    }
}

/// A good rule with few temporal nodes.
pub fn quick(rng: &mut Rng) -> Made {
    let signals = 1 + rng.byte_below(4);
    let temporal = rng.between(0, FEW_TEMPORAL);
    let shape = Shape { signals: 1..=4, temporal: 0..=FEW_TEMPORAL, nodes: 16 };
    let (origin, rule) = match rng.below(10) {
        0..=1 => ("loose", loose_rule(rng, signals, temporal)),
        2..=3 => ("delayed", planned::delayed(rng, signals, temporal)),
        _ => ("random", shape.draw(rng)),
    };
    perhaps_masked(rng, origin, "masked", rule)
}

/// One rule in three gets a mask, and with it another origin.
fn perhaps_masked(rng: &mut Rng, origin: &'static str, masked: &'static str, rule: Rule) -> Made {
    if rng.below(3) != 0 {
        return Made::new(origin, rule.to_bytes());
    }
    let mask = any_mask(rng, rule.signals);
    Made::new(masked, rule.with_mask(mask).to_bytes())
}

/// A good rule with up to 64 nodes, each drawn by itself; many are not used.
fn loose_rule(rng: &mut Rng, signals: u8, temporal: usize) -> Rule {
    let limit = if rng.below(20) == 0 { NODE_LIMIT.into() } else { 12 };
    let count = rng.between(temporal + 1, limit);
    Rule::new(signals, samples::random_nodes(rng, signals, count, temporal))
}

/// Puts a record of a mask, mostly a small one, where a record begins or anywhere.
fn insert_mask(rng: &mut Rng, file: &mut Vec<u8>) {
    let small = rng.chance(70);
    let mask = rng.below(if small { 16 } else { 65536 }) as u16;
    let any = rng.below(file.len() + 1);
    let place = *rng.pick(&[6, 6, 6, 0, 11, 12, file.len(), any]);
    let place = place.min(file.len());
    file.splice(place..place, mask_record(mask));
}

/// What may follow a record: good records, or any bytes.
fn rest(rng: &mut Rng) -> Vec<u8> {
    let count = rng.between(1, 12);
    match rng.below(2) {
        0 => well_sized(1, &[]).repeat(count),
        _ => rng.bytes(count),
    }
}

/// Records that are mostly right, with small numbers in their bodies.
fn random_records(rng: &mut Rng) -> Vec<u8> {
    let count = rng.between(1, 12);
    let signals = 1 + rng.byte_below(4);
    let mut file = header_record(signals, count as u8);
    if rng.chance(30) {
        file.extend(mask_record(rng.below(1 << (1 << signals)) as u16));
    }
    for number in 0..count {
        let kind = rng.between(0, if number < 2 { 5 } else { 14 }) as u16;
        let right = BodyShape::of(kind).map_or(1, |shape| *rng.pick(shape.lengths()));
        let length = if rng.chance(97) { right } else { rng.between(0, 4) };
        let body: Vec<u8> = (0..length).map(|_| rng.byte_below(number.max(2))).collect();
        file.extend(well_sized(kind, &body));
    }
    file
}

/// Any bytes, alone or after a good header.
fn noise(rng: &mut Rng) -> Vec<u8> {
    let limit = *rng.pick(&[4, 16, 64, 256]);
    let count = rng.below(limit);
    let mut file = match rng.below(2) {
        0 => Vec::new(),
        _ => header_record(1 + rng.byte_below(4), 1 + rng.byte_below(64)),
    };
    file.extend(rng.bytes(count));
    file
}
