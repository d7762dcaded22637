//! From a rule text to a rule file, into outputs of several lengths.

use oracle::refusal::Refusal;
use oracle::rule_text;

use super::{lent, painted, refused_by, same, same_bytes, Compared};
use crate::answer;
use crate::case::Room;
use crate::tally::Tally;
use crate::tefuji::{self, RULE_MAX};

/// Stands for the file's length where the text has none.
const NO_FILE: usize = 24;

pub fn compare(text: &[u8], signals: u8, rooms: &[Room], paint: u8, tally: &mut Tally) -> Compared {
    let file = rule_text::file_of(text, signals);
    let file_length = file.as_ref().map_or(NO_FILE, Vec::len);
    let written = Written { text, signals, file, paint };
    for room in rooms {
        written.compare_into(room.length(file_length, RULE_MAX), tally)?;
    }
    Ok(())
}

/// A text, and what the oracle makes of it.
struct Written<'a> {
    text: &'a [u8],
    signals: u8,
    file: Result<Vec<u8>, Refusal>,
    paint: u8,
}

impl Written<'_> {
    /// Writes into an output of this length, in which every byte is `paint`.
    fn compare_into(&self, length: usize, tally: &mut Tally) -> Compared {
        let mut expected_output = vec![self.paint; length];
        let expected = match &self.file {
            Ok(file) => rule_text::put(file, &mut expected_output),
            Err(refusal) => Err(*refusal),
        };
        let lent_text = lent(self.text);
        let mut output = painted(length, self.paint);
        let found = tefuji::write(&lent_text, self.signals, &mut output);
        same("answer of write", found, expected.map_err(answer::refusal))?;
        same_bytes("output of write", &output, &expected_output)?;
        let kept = output[expected.unwrap_or(0)..].iter().all(|&byte| byte == self.paint);
        same("bytes past the file kept", kept, true)?;
        same_bytes("the text that was read", &lent_text, self.text)?;
        let code = answer::code(expected.map(|length| length as u64));
        tally.add_answer("write", refused_by(code));
        Ok(())
    }
}
