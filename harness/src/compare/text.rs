//! The text of a table, as document 01 prints it.

use std::fmt::Write;

use oracle::refusal::Refusal;
use oracle::table::Monitor;

use super::{lent, painted, refused_by, same, same_bytes, Compared};
use crate::answer;
use crate::tally::Tally;
use crate::tefuji::{self, TEXT_ROOM};

/// Prints into an output of this length, in which every byte is `paint`.
pub fn compare(table: &[u8], length: usize, paint: u8, tally: &mut Tally) -> Compared {
    let expected = expected_text(table, length);
    let front = expected.as_deref().unwrap_or("").as_bytes();
    let lent_table = lent(table);
    let mut output = painted(length, paint);
    let found = tefuji::text(&lent_table, &mut output);
    let answer = expected.as_ref().map(|text| text.len()).map_err(|&refusal| refusal);
    same("answer of text", found, answer.map_err(answer::refusal))?;
    let (written, past) = output.split_at(front.len());
    same_bytes("the text", written, front)?;
    same("bytes past the text kept", past.iter().all(|&byte| byte == paint), true)?;
    same_bytes("the table that was read", &lent_table, table)?;
    tally.add_answer("text", refused_by(answer::code(answer.map(|length| length as u64))));
    if let (Ok(monitor), Ok(_)) = (Monitor::open(table), answer) {
        tally.add_masked("text", &monitor);
    }
    Ok(())
}

/// A table's text needs a fixed room, whatever its own length.
fn expected_text(table: &[u8], room: usize) -> Result<String, Refusal> {
    let monitor = Monitor::open(table)?;
    if room < TEXT_ROOM {
        return Err(Refusal::new(10, 0));
    }
    Ok(text_of(&monitor).expect("a string takes all that is written"))
}

/// A line for the counts; then for each state its number, verdict and successors.
fn text_of(monitor: &Monitor) -> Result<String, std::fmt::Error> {
    let mut text = String::new();
    writeln!(text, "signals {} states {}", monitor.signals, monitor.states.len())?;
    for (number, state) in monitor.states.iter().enumerate() {
        write!(text, "{number} {}", state.verdict)?;
        state.successors.iter().try_for_each(|successor| write!(text, " {successor}"))?;
        writeln!(text)?;
    }
    Ok(text)
}
