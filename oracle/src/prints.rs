//! Inputs of the program that prints tables, each with what it must print.
//!
//! The program takes the first 4,096 bytes of its input as a rule file, builds
//! the table with room for every table, and prints it. So of the twenty refusals nine
//! cannot happen: 10, since the room is enough; 12 and 13, since nothing is run; 14,
//! since only a built table is opened; 15 and 16, since no text is read; 18 to 20,
//! since there is no desk.

use std::collections::BTreeSet;
use std::fmt::Write;
use std::fs;
use std::path::Path;

use crate::builder;
use crate::record::{claiming, well_sized};
use crate::rule::{header_record, kind, mask_record, Rule};
use crate::table::Monitor;
use crate::vectors::mask_samples::NOT_ALONE;
use crate::vectors::rule_samples::{longest_file, one_too_many};
use crate::vectors::rule_samples::{nexts, p12, p3, rule, shared_nexts, P};

/// How many bytes of its input the program takes.
const TAKEN: usize = 4096;
/// The length of the longest table.
const ROOM: usize = 9479;
/// A kind that no node has.
const NO_KIND: u16 = 14;

/// An input, under the name of its files.
struct Print {
    name: String,
    input: Vec<u8>,
}

impl Print {
    fn new(name: impl Into<String>, input: Vec<u8>) -> Self {
        Print { name: name.into(), input }
    }

    /// What the program must print.
    fn expected(&self) -> String {
        let taken = &self.input[..self.input.len().min(TAKEN)];
        let mut output = [0; ROOM];
        match builder::build(taken, &mut output) {
            Ok(length) => {
                text(&Monitor::open(&output[..length]).expect("the builder writes a table"))
            }
            Err(refusal) => format!("{refusal}\n"),
        }
    }
}

/// Writes NAME.in and NAME.expected into `folder` for each input: the rule files
/// given, and our own. The answer is how many.
pub fn write_all(folder: &Path, rule_files: &[&Path]) -> Result<usize, String> {
    let mut prints = Vec::new();
    for file in rule_files {
        let input =
            fs::read(file).map_err(|error| format!("cannot read {}: {error}", file.display()))?;
        let stem = file.file_stem().ok_or(format!("{} names no file", file.display()))?;
        prints.push(Print::new(stem.to_string_lossy(), input));
    }
    prints.extend(refused());
    prints.extend(masked());
    prints.extend(long());
    let names: BTreeSet<&str> = prints.iter().map(|print| print.name.as_str()).collect();
    if names.len() < prints.len() {
        return Err("two inputs have the same name".into());
    }
    for print in &prints {
        let written = fs::create_dir_all(folder)
            .and_then(|()| fs::write(folder.join(format!("{}.in", print.name)), &print.input))
            .and_then(|()| {
                fs::write(folder.join(format!("{}.expected", print.name)), print.expected())
            });
        written.map_err(|error| format!("cannot write to {}: {error}", folder.display()))?;
    }
    Ok(prints.len())
}

fn text(monitor: &Monitor) -> String {
    let mut text = format!("signals {} states {}\n", monitor.signals, monitor.states.len());
    for (number, state) in monitor.states.iter().enumerate() {
        write!(text, "{number} {}", state.verdict).expect("a string takes all");
        for successor in &state.successors {
            write!(text, " {successor}").expect("a string takes all");
        }
        text.push('\n');
    }
    text
}

/// An input for each number by which printing can refuse.
fn refused() -> Vec<Print> {
    let header = header_record(1, 1);
    let bytes = |rule: Rule| rule.to_bytes();
    let inputs = [
        (1, bytes(p3())[..10].to_vec()),
        (2, [&header[..], &well_sized(kind::SIGNAL.into(), &[0, 0])].concat()),
        (3, [&header[..], &well_sized(NO_KIND, &[0])].concat()),
        (4, header_record(5, 1)),
        (5, header_record(1, 65)),
        (6, bytes(rule(1, &[P, (kind::NOT, 1, 0)]))),
        (7, bytes(rule(1, &[(kind::SIGNAL, 1, 0)]))),
        (8, bytes(nexts(8))),
        (9, [&bytes(p3())[..], &[0]].concat()),
        (11, bytes(shared_nexts(6))),
        (17, bytes(p3().with_mask(0))),
    ];
    let named = |(number, input)| Print::new(format!("refused_{number}"), input);
    inputs.map(named).into()
}

/// Rules in which not all events can happen, and masks that are refused.
fn masked() -> Vec<Print> {
    let doses = |mask| p12().with_mask(mask).to_bytes();
    let p = |mask| p3().with_mask(mask).to_bytes();
    let one_of_sixteen = Rule { signals: 4, ..p3() }.with_mask(0x8000).to_bytes();
    let twice = [&doses(7)[..12], &doses(7)[6..]].concat();
    let behind_a_node =
        [&p12().to_bytes()[..11], &mask_record(7), &p12().to_bytes()[11..]].concat();
    let last = [&p12().to_bytes()[..], &mask_record(7)].concat();
    let inputs = [
        ("mask_apart", doses(7)),
        ("mask_full", doses(15)),
        ("mask_off", p(1)),
        ("mask_on", p(2)),
        ("mask_one_of_sixteen", one_of_sixteen),
        ("mask_longest", longest_file().with_mask(0x00ff).to_bytes()),
        ("mask_edge", one_too_many().with_mask(NOT_ALONE).to_bytes()),
        ("mask_too_high", doses(16)),
        ("mask_empty", doses(0)),
        ("mask_cut", doses(7)[..11].to_vec()),
        ("mask_twice", twice),
        ("mask_behind_a_node", behind_a_node),
        ("mask_last", last),
        ("mask_first", doses(7)[6..].to_vec()),
    ];
    inputs.map(|(name, input)| Print::new(name, input)).into()
}

/// No input, and inputs about as long as what is taken and far longer. A record that
/// ends with byte 4,096 is judged by its kind; where byte 4,096 is missing, or the record
/// ends one byte later, the file ends within it.
fn long() -> Vec<Print> {
    let record_to = |end: usize| {
        let header = header_record(1, 1);
        let body = vec![0; end - header.len() - 4];
        [&header[..], &claiming(body.len() as u16 + 2, NO_KIND, &body)].concat()
    };
    let padded = |mut input: Vec<u8>, length: usize| {
        input.resize(length, 0);
        input
    };
    let mut prints = vec![
        Print::new("empty", Vec::new()),
        Print::new("to_4096", record_to(TAKEN)),
        Print::new("to_4096_cut", record_to(TAKEN)[..TAKEN - 1].to_vec()),
        Print::new("to_4096_padded", padded(record_to(TAKEN), 100_000)),
        Print::new("to_4097", record_to(TAKEN + 1)),
        Print::new("to_4097_padded", padded(record_to(TAKEN + 1), 100_000)),
    ];
    let lengths = [TAKEN - 1, TAKEN, TAKEN + 1, 100_000];
    let p3_padded = |length| Print::new(format!("p3_{length}"), padded(p3().to_bytes(), length));
    prints.extend(lengths.map(p3_padded));
    prints
}

#[cfg(test)]
mod tests {
    use super::*;

    #[test]
    fn p3_prints_as_document_01_says() {
        let printed = Print::new("p3", p3().to_bytes()).expected();
        let lines = ["signals 1 states 3", "0 undecided 1 2", "1 violated 1 1", "2 satisfied 2 2"];
        assert_eq!(printed, lines.join("\n") + "\n");
    }

    #[test]
    fn each_refusal_is_by_the_number_in_its_name() {
        for print in refused() {
            let words = print.expected().replace(' ', "_");
            assert!(words.starts_with(&format!("{}_at_", print.name)), "{}: {words}", print.name);
        }
    }

    /// Written by hand, but for the tables of the longest file and at the edge of 256.
    #[test]
    fn masks_print_as_they_must() {
        let doses = ["signals 2 states 3", "0 undecided 0 1 0 65535", "1 undecided 1 2 0 65535"];
        let apart = [&doses[..], &["2 violated 2 2 2 65535"]].concat().join("\n");
        let one_of_sixteen = format!("signals 4 states 1\n0 satisfied{} 0", " 65535".repeat(15));
        let expected = [
            ("mask_apart", apart.as_str()),
            ("mask_off", "signals 1 states 1\n0 violated 0 65535"),
            ("mask_on", "signals 1 states 1\n0 satisfied 65535 0"),
            ("mask_one_of_sixteen", &one_of_sixteen),
            ("mask_too_high", "refused 7 at 6"),
            ("mask_empty", "refused 17 at 6"),
            ("mask_cut", "refused 1 at 6"),
            ("mask_twice", "refused 3 at 12"),
            ("mask_behind_a_node", "refused 3 at 11"),
            ("mask_last", "refused 9 at 43"),
            ("mask_first", "refused 3 at 0"),
        ];
        let prints = masked();
        for (name, text) in expected {
            let print = prints.iter().find(|print| print.name == name).unwrap();
            assert_eq!(print.expected(), format!("{text}\n"), "{name}");
        }
        let full = prints.iter().find(|print| print.name == "mask_full").unwrap();
        assert_eq!(full.expected(), Print::new("p12", p12().to_bytes()).expected());
    }

    #[test]
    fn the_long_inputs_tell_the_limit_apart() {
        let found: Vec<String> =
            long().iter().map(|print| print.name.clone() + ": " + &print.expected()).collect();
        let expected = [
            "empty: refused 1 at 0\n",
            "to_4096: refused 3 at 6\n",
            "to_4096_cut: refused 1 at 6\n",
            "to_4096_padded: refused 3 at 6\n",
            "to_4097: refused 1 at 6\n",
            "to_4097_padded: refused 1 at 6\n",
            "p3_4095: refused 9 at 11\n",
            "p3_4096: refused 9 at 11\n",
            "p3_4097: refused 9 at 11\n",
            "p3_100000: refused 9 at 11\n",
        ];
        assert_eq!(found, expected);
    }

    #[test]
    fn the_long_inputs_have_the_lengths_around_the_limit() {
        for length in [0, 4095, 4096, 4097, 100_000] {
            assert!(long().iter().any(|print| print.input.len() == length), "{length}");
        }
    }
}
