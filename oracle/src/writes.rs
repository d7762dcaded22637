//! Inputs of the program that writes rule files from rule texts, each with what it must write and say.
//!
//! The program takes the number of signals as its argument and the text from its input, of which one line end
//! (byte 10) is dropped where it stands last. It has room for every rule file, so it never refuses by 10. A
//! refusal goes to standard error: its number and place, then the text, and below it a mark at the place. There
//! a byte outside 32 to 126 shows as `?`, and no more than the first 1,024 bytes show.

use std::collections::BTreeSet;
use std::fs;
use std::path::Path;

use crate::refusal::Refusal;
use crate::rule_text::{self, TEXT_LIMIT};
use crate::vectors::text_watched::repeated;

const LINE_END: u8 = 10;

/// An argument and an input, under the name of its files.
struct Typed {
    name: String,
    signals: u8,
    input: Vec<u8>,
}

impl Typed {
    fn new(name: impl Into<String>, signals: u8, input: impl Into<Vec<u8>>) -> Self {
        Typed { name: name.into(), signals, input: input.into() }
    }

    fn text(&self) -> &[u8] {
        self.input.strip_suffix(&[LINE_END]).unwrap_or(&self.input)
    }

    /// What the program must write, and what it must say.
    fn expected(&self) -> (Vec<u8>, String) {
        match rule_text::file_of(self.text(), self.signals) {
            Ok(file) => (file, String::new()),
            Err(refusal) => (Vec::new(), marked(self.text(), refusal)),
        }
    }

    fn write(&self, folder: &Path) -> std::io::Result<()> {
        let (rule, said) = self.expected();
        let path = |ending: &str| folder.join(format!("{}.{ending}", self.name));
        fs::create_dir_all(folder)?;
        fs::write(path("signals"), self.signals.to_string())?;
        fs::write(path("in"), &self.input)?;
        fs::write(path("rule"), rule)?;
        fs::write(path("said"), said)
    }
}

/// The refusal, the text, and a mark below its place.
fn marked(text: &[u8], refusal: Refusal) -> String {
    let shown = |&byte: &u8| if (32..=126).contains(&byte) { char::from(byte) } else { '?' };
    let line: String = text.iter().take(TEXT_LIMIT).map(shown).collect();
    format!("{refusal}\n{line}\n{}^\n", " ".repeat(refusal.place))
}

/// Writes NAME.signals, NAME.in, NAME.rule and NAME.said into `folder` for each input: the text files given,
/// each behind its number of signals, and our own. The answer is how many.
pub fn write_all(folder: &Path, given: &[&str]) -> Result<usize, String> {
    let mut typed = read_all(given)?;
    typed.extend(short());
    typed.extend(long());
    let names: BTreeSet<&str> = typed.iter().map(|typed| typed.name.as_str()).collect();
    if names.len() < typed.len() {
        return Err("two inputs have the same name".into());
    }
    for typed in &typed {
        typed
            .write(folder)
            .map_err(|error| format!("cannot write to {}: {error}", folder.display()))?;
    }
    Ok(typed.len())
}

fn read_all(given: &[&str]) -> Result<Vec<Typed>, String> {
    let mut typed = Vec::new();
    for pair in given.chunks(2) {
        let &[signals, file] = pair else {
            return Err("each text file stands behind its number of signals".into());
        };
        let signals = signals.parse().map_err(|_| format!("{signals} is no number of signals"))?;
        let input = fs::read(file).map_err(|error| format!("cannot read {file}: {error}"))?;
        let stem = Path::new(file).file_stem().ok_or(format!("{file} names no file"))?;
        typed.push(Typed::new(stem.to_string_lossy(), signals, input));
    }
    Ok(typed)
}

/// An input for each refusal, with and without a line end, and with bytes that do not show.
fn short() -> Vec<Typed> {
    let nots = |count: usize| "!".repeat(count) + "s0\n";
    vec![
        Typed::new("empty", 1, ""),
        Typed::new("line_end", 1, "\n"),
        Typed::new("no_line_end", 3, "s0 U s2"),
        Typed::new("two_line_ends", 1, "s0\n\n"),
        Typed::new("return", 1, "s0\r\n"),
        Typed::new("line_end_within", 2, "s0 &\ns1\n"),
        Typed::new("tab", 2, "s0\t& s1\n"),
        Typed::new("zero", 2, b"s0 & \0 s1\n".as_slice()),
        Typed::new("high", 2, b"\xc2\xac s0 \x7f\x80\xff\n".as_slice()),
        Typed::new("refused_4_none", 0, "s0\n"),
        Typed::new("refused_4", 5, "s0 & s1\n"),
        Typed::new("refused_4_most", 255, "s0 & s1\n"),
        Typed::new("refused_7", 3, "s0 & s3\n"),
        Typed::new("refused_8", 1, "XXXX XXXX s0\n"),
        Typed::new("refused_15", 5, "s0 & & s1\n"),
        Typed::new("refused_16", 1, nots(64)),
        Typed::new("nodes_64", 1, nots(63)),
        Typed::new("longest_file", 1, "!".to_string() + &"s0&".repeat(31) + "s0\n"),
    ]
}

/// Texts of about as many bytes as are taken and of far more, with a line end, without, and with two.
fn long() -> Vec<Typed> {
    let mut typed = Vec::new();
    for length in [TEXT_LIMIT - 1, TEXT_LIMIT, TEXT_LIMIT + 1, 100_000] {
        let text = [vec![b' '; length - 2], b"s0".to_vec()].concat();
        for (ending, end) in [("", ""), ("_line_end", "\n"), ("_line_ends", "\n\n")] {
            let input = [&text[..], end.as_bytes()].concat();
            typed.push(Typed::new(format!("to_{length}{ending}"), 1, input));
        }
    }
    let pairs = |before, after| repeated(&[("(", before), ("s0", 1), (")", after), ("\n", 1)]);
    typed.push(Typed::new("pairs_511", 1, pairs(511, 511)));
    typed.push(Typed::new("pairs_512", 1, pairs(512, 512)));
    typed.push(Typed::new("bracket_missing", 1, pairs(512, 510)));
    typed.push(Typed::new("bracket_too_many", 1, pairs(510, 511)));
    typed.push(Typed::new("opening_1024", 1, vec![b'('; TEXT_LIMIT]));
    typed
}

#[cfg(test)]
mod tests {
    use super::*;

    fn said(signals: u8, input: &[u8]) -> String {
        let (rule, said) = Typed::new("", signals, input).expected();
        assert_eq!(rule, []);
        said
    }

    #[test]
    fn a_text_that_fits_is_written_and_nothing_said() {
        for input in ["s0", "s0\n"] {
            let (rule, said) = Typed::new("", 1, input).expected();
            assert_eq!(rule, [4, 0, 0, 1, 1, 1, 3, 0, 2, 0, 0]);
            assert_eq!(said, "");
        }
    }

    #[test]
    fn a_refusal_is_marked_below_the_text() {
        assert_eq!(said(2, b"s0 & & s1\n"), "refused 15 at 5\ns0 & & s1\n     ^\n");
        assert_eq!(said(2, b"s3\n"), "refused 7 at 0\ns3\n^\n");
        assert_eq!(said(2, b""), "refused 15 at 0\n\n^\n");
        assert_eq!(said(2, b"s0\n\n"), "refused 15 at 2\ns0?\n  ^\n");
        assert_eq!(said(2, b"~\x7f\x80 \x1f"), "refused 15 at 0\n~?? ?\n^\n");
    }

    #[test]
    fn a_text_too_long_shows_its_first_1024_bytes() {
        let line = "(".repeat(1024);
        let expected = format!("refused 15 at 1024\n{line}\n{}^\n", " ".repeat(1024));
        assert_eq!(said(9, &[b'('; 1025]), expected);
        assert_eq!(said(1, &[b'('; 1024]), expected);
    }

    #[test]
    fn each_refusal_is_by_the_number_in_its_name() {
        for typed in short().iter().filter(|typed| typed.name.starts_with("refused")) {
            let number = typed.name.split('_').nth(1).unwrap();
            let said = typed.expected().1;
            assert!(said.starts_with(&format!("refused {number} at ")), "{}: {said}", typed.name);
        }
    }

    #[test]
    fn the_long_inputs_tell_the_limit_apart() {
        let fits = |typed: &Typed| typed.expected().1.is_empty();
        let fitting: Vec<String> =
            long().into_iter().filter(fits).map(|typed| typed.name).collect();
        let expected = ["to_1023", "to_1023_line_end", "to_1024", "to_1024_line_end", "pairs_511"];
        assert_eq!(fitting, expected);
    }
}
