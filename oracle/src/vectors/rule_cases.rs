//! The cases of the rule file stream.

use super::mask_samples;
use super::rule_faults::{self, Fault, RuleStart};
use super::rule_samples as samples;
use super::{append_counted, Case};
use crate::random_masks::any_mask;
use crate::record::{claiming, well_sized, Record};
use crate::refusal::Refusal;
use crate::rng::Rng;
use crate::rule::MASK_KIND;
use crate::rule::{header_record, kind, mask_record, BodyShape, FormulaNode, Rule};

const SEED: u64 = 0x5eed_0000_0000_0001;
const LONGEST_FILE: usize = 4096;

pub struct RuleCase {
    pub file: Vec<u8>,
}

impl Case for RuleCase {
    fn append_to(&self, stream: &mut Vec<u8>) {
        append_counted(stream, &self.file);
    }

    fn expected_line(&self) -> String {
        match Rule::read(&self.file) {
            Ok(rule) => rule.to_string(),
            Err(refusal) => refusal.to_string(),
        }
    }

    fn brought_by_masks(&self) -> Option<&'static str> {
        rule_faults::refused_by_mask(&self.file)
    }
}

/// Gathers cases. A case made for one answer is held against the reader.
struct RuleCases {
    rng: Rng,
    cases: Vec<RuleCase>,
}

/// Every case, always the same ones.
pub fn all() -> Vec<RuleCase> {
    let mut gathered = RuleCases { rng: Rng::new(SEED), cases: Vec::new() };
    gathered.add_good_rules();
    gathered.add_header_faults();
    gathered.add_node_faults();
    gathered.add_double_faults();
    gathered.add_faults_in_two_records();
    gathered.add_uncounted_bytes();
    gathered.add_trailing_bytes();
    gathered.add_missing_nodes();
    gathered.add_truncations();
    gathered.add_random_bytes();
    gathered.add_random_records();
    gathered.add_changed_files();
    gathered.add_masked_rules();
    gathered.add_mask_faults();
    gathered.add_misplaced_masks();
    gathered.add_nodes_behind_masks();
    gathered.cases
}

impl RuleCases {
    fn add(&mut self, file: Vec<u8>) {
        assert!(file.len() <= LONGEST_FILE);
        self.cases.push(RuleCase { file });
    }

    fn add_good(&mut self, rule: Rule) {
        let file = rule.to_bytes();
        assert_eq!(Rule::read(&file), Ok(rule));
        self.add(file);
    }

    fn add_refused(&mut self, file: Vec<u8>, number: u8, place: usize) {
        assert_eq!(Rule::read(&file), Err(Refusal::new(number, place)), "{file:02x?}");
        self.add(file);
    }

    /// Adds a file in which `record` follows `beginning`. What comes after it
    /// must not matter, unless the refusal is that the file ends too early.
    fn add_fault(&mut self, beginning: &[u8], fault: &Fault, after: &[u8]) {
        let after = if fault.number == 1 { &[] } else { after };
        let file = [beginning, &fault.record, after].concat();
        self.add_refused(file, fault.number, beginning.len());
    }

    /// Nothing, good records, or any bytes.
    fn random_rest(&mut self) -> Vec<u8> {
        match self.rng.below(3) {
            0 => Vec::new(),
            1 => well_sized(1, &[]).repeat(self.rng.between(1, 4)),
            _ => self.random_bytes_up_to(12),
        }
    }

    fn random_bytes_up_to(&mut self, limit: usize) -> Vec<u8> {
        let count = self.rng.between(1, limit);
        self.rng.bytes(count)
    }

    fn add_good_rules(&mut self) {
        for rule in samples::known_rules() {
            self.add_good(rule);
        }
        let place_of_the_eighth = samples::nexts(7).to_bytes().len();
        self.add_refused(samples::nexts(8).to_bytes(), 8, place_of_the_eighth);
        for _ in 0..250 {
            let rule = samples::random_short_rule(&mut self.rng, 16);
            self.add_good(rule);
        }
        for _ in 0..250 {
            let rule = samples::random_rule(&mut self.rng);
            self.add_good(rule);
        }
    }

    fn add_header_faults(&mut self) {
        for fault in rule_faults::header_faults() {
            self.add_fault(&[], &fault, &[]);
            if fault.number > 1 {
                let rest = samples::random_short_rule(&mut self.rng, 3).nodes;
                let after: Vec<u8> = rest.iter().flat_map(|node| node.to_record()).collect();
                self.add_fault(&[], &fault, &after);
            }
        }
    }

    fn add_node_faults(&mut self) {
        for start in rule_faults::starts(&mut self.rng) {
            for fault in rule_faults::node_faults(&start) {
                let after = self.random_rest();
                self.add_fault(&start.to_bytes(), &fault, &after);
            }
        }
    }

    /// Doubly faulty records both with and without bytes after them. Where
    /// the record is the last one due, bytes after it are one fault more.
    fn add_double_faults(&mut self) {
        for start in rule_faults::starts(&mut self.rng) {
            let late = rule_faults::late_operands(&start);
            let eighth = rule_faults::eighth_temporal(&start);
            let counts = rule_faults::counts_out_of_range(&start);
            let doubles = rule_faults::double_faults(&start);
            let some = late.into_iter().chain(counts).step_by(7);
            for fault in some.chain(eighth).chain(doubles) {
                self.add_fault(&start.to_bytes(), &fault, &[]);
                self.add_fault(&start.to_bytes(), &fault, &[0]);
            }
        }
    }

    /// The first faulty record decides, whatever the second one has.
    fn add_faults_in_two_records(&mut self) {
        let starts = rule_faults::starts(&mut self.rng);
        for _ in 0..150 {
            let start = self.rng.pick(&starts);
            let (first, second) = self.pick_two_faults(start);
            self.add_fault(&start.to_bytes(), &first, &second.record);
        }
        let header_faults: Vec<Fault> = rule_faults::header_faults();
        for fault in header_faults.iter().filter(|fault| fault.number != 1) {
            let second = self.pick_two_faults(&starts[0]).1;
            self.add_fault(&[], fault, &second.record);
        }
    }

    /// Two faults, of which the first does not end the file.
    fn pick_two_faults(&mut self, start: &RuleStart) -> (Fault, Fault) {
        let faults = rule_faults::node_faults(start);
        let has = |number: &u8| faults.iter().any(|fault| fault.number == *number);
        let numbers: Vec<u8> = (2..=8).filter(has).collect();
        let wanted = *self.rng.pick(&numbers);
        let firsts: Vec<&Fault> = faults.iter().filter(|fault| fault.number == wanted).collect();
        let first = (*self.rng.pick(&firsts)).clone();
        (first, self.rng.pick(&faults).clone())
    }

    /// A byte behind an "at least" whose length says two is no upper count, and one that says three
    /// takes the first byte of what follows it.
    fn add_uncounted_bytes(&mut self) {
        let at_least = |length, body: &[u8]| claiming(length, kind::AT_LEAST.into(), body);
        let (one, two) = (header_record(2, 1), header_record(2, 2));
        let (verum, signal) = (well_sized(1, &[]), well_sized(2, &[0]));
        let counted = FormulaNode::between(3, 1, 1).to_record();
        for upper in [0, 1, 4, 5] {
            let long = at_least(4, &[3, 1, upper]);
            self.add_refused([&one[..], &long].concat(), 9, 12);
            self.add_refused([&two[..], &long, &verum].concat(), 1, 12);
        }
        let short = at_least(5, &[3, 1]);
        self.add_refused([&one[..], &short, &verum].concat(), 9, 13);
        self.add_refused([&two[..], &short, &signal].concat(), 1, 13);
        self.add_refused([&two[..], &short, &counted].concat(), 7, 6);
        self.add_refused([&one[..], &short].concat(), 1, 6);
    }

    /// Refusal 9: one byte or many after the last node.
    fn add_trailing_bytes(&mut self) {
        let longest = samples::longest_file();
        let mut rules = vec![longest.clone(), longest.with_mask(1)];
        rules.extend((0..30).map(|_| samples::random_short_rule(&mut self.rng, 20)));
        for file in rules.iter().map(Rule::to_bytes) {
            let rest = self.random_bytes_up_to(40);
            for after in
                [vec![0], vec![2], vec![255], well_sized(0, &[]), well_sized(14, &[0]), rest]
            {
                self.add_refused([&file[..], &after].concat(), 9, file.len());
            }
        }
        for fill in [0, 2, 255] {
            let mut file = samples::p12().to_bytes();
            let place = file.len();
            file.resize(LONGEST_FILE, fill);
            self.add_refused(file, 9, place);
        }
    }

    /// Refusal 1: whole records, but fewer than N.
    fn add_missing_nodes(&mut self) {
        for round in 0..40 {
            let mut rule = samples::random_short_rule(&mut self.rng, 12);
            if round >= 30 {
                rule = self.masked(rule);
            }
            let given = rule.nodes.len();
            let any_more = self.rng.between(given + 1, 64);
            for node_count in [given + 1, any_more, 64] {
                let mut file = rule.to_bytes();
                file[5] = node_count as u8;
                let place = file.len();
                self.add_refused(file, 1, place);
            }
        }
        self.add_refused(header_record(4, 64), 1, 6);
    }

    /// Every proper beginning of seven files.
    fn add_truncations(&mut self) {
        let largest = samples::largest(&mut self.rng);
        let known = [samples::p3(), samples::p9(), samples::p12(), samples::all_kinds()];
        let others = [largest, samples::mixed_counts(5), mask_samples::valve_block()];
        let rules = known.into_iter().chain(others);
        for file in rules.map(|rule| rule.to_bytes()) {
            let starts = record_starts(&file);
            for length in 0..file.len() {
                let begun = starts.iter().rfind(|&&start| start <= length);
                let place = *begun.expect("the first record starts at 0");
                self.add_refused(file[..length].to_vec(), 1, place);
            }
            self.add(file);
        }
    }

    fn add_random_bytes(&mut self) {
        for limit in [4, 8, 16, 64, 256] {
            for _ in 0..50 {
                let file = self.random_bytes_up_to(limit);
                self.add(file);
            }
        }
        for limit in [4, 8, 16, 64] {
            for _ in 0..40 {
                let mut file =
                    header_record(1 + self.rng.byte_below(4), 1 + self.rng.byte_below(64));
                file.extend(self.random_bytes_up_to(limit));
                self.add(file);
            }
        }
    }

    /// Records that are mostly right, with small numbers in their bodies.
    fn add_random_records(&mut self) {
        for _ in 0..300 {
            let node_count = self.rng.between(1, 12);
            let signals = self.rng.byte_below(6);
            let mut file = header_record(signals, node_count as u8);
            if self.rng.chance(20) {
                file.extend(mask_record(self.rng.below(1 << (1 << signals.min(4))) as u16));
            }
            for number in 0..node_count {
                file.extend(self.random_record(number));
            }
            self.add(file);
        }
    }

    fn random_record(&mut self, number: usize) -> Vec<u8> {
        let limit = if number < 2 { 5 } else { 15 };
        let kind = self.rng.between(0, limit) as u16;
        let right = BodyShape::of(kind).map_or(1, |shape| *self.rng.pick(shape.lengths()));
        let length = if self.rng.chance(97) { right } else { self.rng.between(0, 4) };
        let body: Vec<u8> = (0..length).map(|_| self.rng.byte_below(number.max(2))).collect();
        well_sized(kind, &body)
    }

    /// A good rule, with a mask that any may be.
    fn masked(&mut self, rule: Rule) -> Rule {
        let mask = any_mask(&mut self.rng, rule.signals);
        rule.with_mask(mask)
    }

    fn add_masked_rules(&mut self) {
        for rule in mask_samples::masked_rules() {
            self.add_good(rule);
        }
        for _ in 0..250 {
            let rule = samples::random_short_rule(&mut self.rng, 16);
            let masked = self.masked(rule);
            self.add_good(masked);
        }
        for _ in 0..50 {
            let rule = samples::random_rule(&mut self.rng);
            let masked = self.masked(rule);
            self.add_good(masked);
        }
    }

    /// Masks that are refused, with anything behind them, and behind a faulty header, which
    /// comes first.
    fn add_mask_faults(&mut self) {
        let faulty_header =
            |fault: &&Fault| [4, 5].contains(&fault.number) && fault.record.len() == 6;
        let headers: Vec<Fault> =
            rule_faults::header_faults().iter().filter(faulty_header).cloned().collect();
        for start in rule_faults::headers() {
            for fault in rule_faults::mask_faults(start.signals) {
                let rests = [
                    Vec::new(),
                    well_sized(1, &[]).repeat(start.node_count.into()),
                    mask_record(1),
                    rule_faults::node_faults(&start)[self.rng.below(300)].record.clone(),
                    self.random_rest(),
                ];
                let many = [7, 17].contains(&fault.number);
                for after in &rests[..if many { 5 } else { 2 }] {
                    self.add_fault(&start.to_bytes(), &fault, after);
                }
                let header = self.rng.pick(&headers).clone();
                self.add_fault(&[], &header, &fault.record);
            }
        }
    }

    /// Masks, good ones and others, behind a mask, behind some nodes, behind the last one, and
    /// in the place of a node that is due.
    fn add_misplaced_masks(&mut self) {
        let lengthened = well_sized(MASK_KIND, &[1, 0, 0]);
        for _ in 0..30 {
            let rule = samples::random_short_rule(&mut self.rng, 12);
            let any = any_mask(&mut self.rng, rule.signals);
            let wrong = [mask_record(any), mask_record(0), mask_record(65535), lengthened.clone()];
            let record = self.rng.pick(&wrong).clone();
            for rule in [rule.clone(), rule.with_mask(any)] {
                let file = rule.to_bytes();
                self.add_refused([&file[..], &record].concat(), 9, file.len());
                let starts = record_starts(&file);
                // From the third record on: a mask has come, or a node.
                for &place in starts.iter().skip(2).take(2) {
                    let broken = [&file[..place], &record, &file[place..]].concat();
                    self.add_refused(broken, 3, place);
                }
            }
        }
    }

    /// A mask is no node: as many nodes as before are due behind it, with the refusals that they
    /// had, six bytes later.
    fn add_nodes_behind_masks(&mut self) {
        for signals in 1..=4 {
            let header = header_record(signals, 1);
            self.add_refused([&header[..], &mask_record(1)].concat(), 1, 12);
        }
        for _ in 0..60 {
            let mut file = samples::random_short_rule(&mut self.rng, 10).to_bytes();
            let place = self.rng.between(6, file.len() - 1);
            file[place] = self.rng.byte_below(16);
            if u16::from_le_bytes([file[8], file[9]]) == MASK_KIND {
                continue;
            }
            let without = Rule::read(&file);
            let mask = mask_record(any_mask(&mut self.rng, file[4]));
            let masked = [&file[..6], &mask, &file[6..]].concat();
            match without {
                Err(Refusal { number, place }) => self.add_refused(masked, number, place + 6),
                Ok(_) => self.add(masked),
            }
            // A mask that is refused comes before the nodes, whatever they are.
            let none = [&file[..6], &mask_record(0), &file[6..]].concat();
            self.add_refused(none, 17, 6);
        }
    }

    /// Good files with one byte changed, added or taken away.
    fn add_changed_files(&mut self) {
        for round in 0..900 {
            let limit = if round % 10 == 0 { 64 } else { 14 };
            let mut rule = samples::random_short_rule(&mut self.rng, limit);
            if round % 3 == 0 {
                rule = self.masked(rule);
            }
            let mut file = rule.to_bytes();
            let place = self.rng.below(file.len());
            let small = self.rng.chance(60);
            let value = self.rng.byte_below(if small { 16 } else { 256 });
            match round % 6 {
                0 => file.insert(place, value),
                1 => drop(file.remove(place)),
                _ => file[place] = value,
            }
            self.add(file);
        }
    }
}

/// The places at which the records of a good file start.
fn record_starts(file: &[u8]) -> Vec<usize> {
    let mut starts = Vec::new();
    let mut place = 0;
    while place < file.len() {
        starts.push(place);
        place = Record::read(file, place).expect("a good file has whole records").end();
    }
    starts
}

#[cfg(test)]
mod tests {
    use super::*;

    #[test]
    fn p3_has_its_line() {
        let case = RuleCase { file: samples::p3().to_bytes() };
        assert_eq!(case.expected_line(), "rule 1 3 1: 2.0.0.0");
    }

    /// The bodies of the records of kind 3 by which a file is refused by this number, each with the
    /// file's number of signals.
    fn refused_counts(number: u8) -> Vec<(u8, Vec<u8>)> {
        let refused = |case: RuleCase| {
            let refusal =
                Rule::read(&case.file).err().filter(|refusal| refusal.number == number)?;
            let record = Record::read(&case.file, refusal.place).ok()?;
            (record.kind == 3).then(|| (case.file[4], record.body.to_vec()))
        };
        all().into_iter().filter_map(refused).collect()
    }

    #[test]
    fn upper_counts_alone_are_out_of_range_at_least_20_times() {
        let refused = refused_counts(7);
        for upper in [5, 6, 128, 255] {
            let is_it = |(signals, body): &&(u8, Vec<u8>)| match body[..] {
                [mask, least, most] => mask < 1 << signals && least <= 4 && most == upper,
                _ => false,
            };
            assert!(refused.iter().filter(is_it).count() >= 20, "{upper}");
        }
        assert!(refused.iter().filter(|(_, body)| body.len() == 2).count() >= 20);
    }

    #[test]
    fn every_wrong_length_of_a_count_is_met() {
        let refused = refused_counts(2);
        assert!(refused.len() >= 20);
        for length in [0, 1, 4, 5, 258, 259] {
            assert!(refused.iter().filter(|(_, body)| body.len() == length).count() >= 6);
        }
        assert!(refused.iter().all(|(_, body)| ![2, 3].contains(&body.len())));
    }

    #[test]
    fn masks_are_refused_in_every_way_at_least_20_times() {
        let ways: Vec<_> = all().iter().filter_map(Case::brought_by_masks).collect();
        for way in ["2 by a mask's length", "3 by a mask's place", "7 by the mask"] {
            assert!(ways.iter().filter(|&&other| other == way).count() >= 20, "{way}");
        }
        for way in ["9 by a mask's place", "17 by the mask"] {
            assert!(ways.iter().filter(|&&other| other == way).count() >= 20, "{way}");
        }
    }

    /// The bits that are too high, by the number of signals of the files that are refused for one.
    #[test]
    fn every_bit_too_high_is_met() {
        let is_refused =
            |case: &RuleCase| case.brought_by_masks().is_some_and(|way| way.starts_with('7'));
        let files: Vec<Vec<u8>> =
            all().into_iter().filter(is_refused).map(|case| case.file).collect();
        for (signals, width) in [(1, 2), (2, 4), (3, 8)] {
            for bit in width..16 {
                let mask = (1u16 << bit).to_le_bytes();
                let is_it = |file: &&Vec<u8>| file[4] == signals && file[10..12] == mask;
                assert!(files.iter().filter(is_it).count() >= 3, "{signals} {bit}");
            }
        }
        assert!(files.iter().all(|file| file[4] < 4));
    }

    #[test]
    fn records_of_p3_start_at_0_and_6() {
        assert_eq!(record_starts(&samples::p3().to_bytes()), [0, 6]);
    }
}
