//! The stored test vectors: an input stream and the lines expected for it.

mod build_answers;
mod build_cases;
mod build_samples;
mod edge_tables;
pub mod mask_samples;
mod mask_tables;
mod rule_cases;
pub mod rule_faults;
pub mod rule_samples;
mod table_cases;
pub mod table_faults;
pub mod table_samples;
mod text_cases;
pub mod text_samples;
pub mod text_watched;

use std::collections::BTreeMap;
use std::fmt;
use std::fs;
use std::path::Path;

use crate::certify::Summary;

/// One case of an input stream and the line expected for it.
trait Case {
    fn append_to(&self, stream: &mut Vec<u8>);
    fn expected_line(&self) -> String;

    /// The refusal in words, if there is one only because events can be impossible.
    fn brought_by_masks(&self) -> Option<&'static str> {
        None
    }
}

/// What was certified, and what the streams hold.
pub struct Written {
    pub certified: Summary,
    streams: Vec<Stream>,
}

impl fmt::Display for Written {
    fn fmt(&self, out: &mut fmt::Formatter<'_>) -> fmt::Result {
        write!(out, "{}", self.certified)?;
        self.streams.iter().try_for_each(|stream| write!(out, "\n{stream}"))
    }
}

/// How many cases a stream has, and how many are expected to be refused, by number.
struct Stream {
    name: &'static str,
    cases: usize,
    refused: BTreeMap<u8, usize>,
    brought_by_masks: BTreeMap<&'static str, usize>,
}

impl Stream {
    fn of(name: &'static str, cases: &[impl Case]) -> Self {
        let mut stream = Stream {
            name,
            cases: cases.len(),
            refused: BTreeMap::new(),
            brought_by_masks: BTreeMap::new(),
        };
        for case in cases {
            if let Some(number) = refused_by(&case.expected_line()) {
                *stream.refused.entry(number).or_default() += 1;
            }
            if let Some(words) = case.brought_by_masks() {
                *stream.brought_by_masks.entry(words).or_default() += 1;
            }
        }
        stream
    }
}

impl fmt::Display for Stream {
    fn fmt(&self, out: &mut fmt::Formatter<'_>) -> fmt::Result {
        let counts = self.refused.iter().map(|(number, count)| format!("{number}: {count}"));
        let counts = counts.collect::<Vec<_>>().join(", ");
        write!(out, "{}: {} cases, refused {counts}", self.name, self.cases)?;
        let words = self.brought_by_masks.iter().map(|(words, count)| format!("{words} {count}"));
        let words = words.collect::<Vec<_>>().join(", ");
        match self.brought_by_masks.is_empty() {
            true => Ok(()),
            false => write!(out, "; of these {words}"),
        }
    }
}

/// The number of the refusal in a line, if there is one.
fn refused_by(line: &str) -> Option<u8> {
    let (_, after) = line.split_once("refused ")?;
    after.split(' ').next()?.parse().ok()
}

/// Writes the folders of vectors under `folder`. The tables among them are
/// certified before anything is written.
pub fn write_all(folder: &Path) -> Result<Written, String> {
    let (build_cases, certified) = build_cases::all()?;
    let streams = vec![
        write_stream(folder, "rule_vectors", &rule_cases::all())?,
        write_stream(folder, "table_vectors", &table_cases::all())?,
        write_stream(folder, "build_vectors", &build_cases)?,
        write_stream(folder, "text_vectors", &text_cases::all())?,
    ];
    Ok(Written { certified, streams })
}

fn write_stream(folder: &Path, name: &'static str, cases: &[impl Case]) -> Result<Stream, String> {
    let folder = &folder.join(name);
    let mut stream = Vec::new();
    let mut lines = String::new();
    for case in cases {
        case.append_to(&mut stream);
        lines.push_str(&case.expected_line());
        lines.push('\n');
    }
    let written = fs::create_dir_all(folder)
        .and_then(|()| fs::write(folder.join("stdin"), stream))
        .and_then(|()| fs::write(folder.join("stdout"), lines));
    written.map_err(|error| format!("cannot write to {}: {error}", folder.display()))?;
    Ok(Stream::of(name, cases))
}

/// Appends a two-byte count and then the bytes.
fn append_counted(stream: &mut Vec<u8>, bytes: &[u8]) {
    let count = u16::try_from(bytes.len()).expect("a case counts in two bytes");
    stream.extend(count.to_le_bytes());
    stream.extend(bytes);
}

#[cfg(test)]
mod tests {
    use super::*;

    #[test]
    fn every_refusal_number_is_met_at_least_20_times() {
        let of_rules = Stream::of("rule_vectors", &rule_cases::all());
        for number in (1..=9).chain([17]) {
            assert!(of_rules.refused[&number] >= 20, "refusal {number}");
        }
        let of_tables = Stream::of("table_vectors", &table_cases::all());
        for number in 12..=14 {
            assert!(of_tables.refused[&number] >= 20, "refusal {number}");
        }
        for words in ["12 by an impossible event", "14 by missing successors"] {
            assert!(of_tables.brought_by_masks[words] >= 20, "{words}");
        }
    }

    #[test]
    fn a_line_is_refused_by_its_number() {
        assert_eq!(refused_by("refused 17 at 6 kept"), Some(17));
        assert_eq!(refused_by("table 2 3: refused 12 at 1 rewritten"), Some(12));
        assert_eq!(refused_by("rule 1 3 1: 2.0.0.0"), None);
    }

    #[test]
    fn accepted_cases_are_many() {
        let accepted =
            |lines: &[String]| lines.iter().filter(|line| !line.contains("refused")).count();
        let rule_lines: Vec<_> = rule_cases::all().iter().map(Case::expected_line).collect();
        let table_lines: Vec<_> = table_cases::all().iter().map(Case::expected_line).collect();
        assert!(accepted(&rule_lines) >= 400);
        assert!(accepted(&table_lines) >= 400);
    }

    #[test]
    fn streams_have_their_form() {
        let mut stream = Vec::new();
        rule_cases::RuleCase { file: vec![7, 8, 9] }.append_to(&mut stream);
        assert_eq!(stream, [3, 0, 7, 8, 9]);
        let case = table_cases::TableCase { table: vec![5, 0], state: 258, events: vec![1] };
        stream.clear();
        case.append_to(&mut stream);
        assert_eq!(stream, [2, 0, 5, 0, 2, 1, 1, 0, 1]);
        stream.clear();
        text_cases::TextCase { text: b"s0".to_vec(), signals: 3, room: 258 }.append_to(&mut stream);
        assert_eq!(stream, [2, 0, b's', b'0', 3, 2, 1]);
    }
}
