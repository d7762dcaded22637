//! The tables of the rules at the edge of 256, row by row, counted from what the rules say,
//! also where some events cannot happen. Nothing here knows how a table is built.
//!
//! Both rules are the exclusive or of terms: some that the first event decides, or makes
//! undecidable, and "signals 0 to 2 eventually show k", for each number k from 1 to the last,
//! which is 7 for the full table and 6 for the merged states. So behind the first event only
//! two things matter: which numbers have come, and whether the terms that are true by now are
//! odd in number. Once all numbers have come, that is the verdict; until then another number
//! can still come, or not. Each pair of the two is a state of its own: if a number has come in
//! one pair only, all the others decide that one; if the same have come, the rest of them
//! decides both, and not alike.

use crate::mask::Mask;

/// What matters of the events read so far.
#[derive(Clone, Copy, PartialEq)]
enum Past {
    Empty,
    /// The numbers that have come, a bit for each, and whether the true terms are odd in number.
    Come {
        numbers: u8,
        odd: bool,
    },
    /// The first event showed 7 where the last number is 6: "always eventually 1" is among the
    /// terms, and no event decides that.
    Endless,
}

impl Past {
    fn after(self, event: u8, last: u8) -> Past {
        let number = event % 8;
        let (numbers, odd) = match self {
            Past::Empty if number > last => return Past::Endless,
            // Signal 3, and any other with it.
            Past::Empty => (0, event > 8),
            Past::Come { numbers, odd } => (numbers, odd),
            Past::Endless => return Past::Endless,
        };
        let is_new = (1..=last).contains(&number) && numbers >> number & 1 == 0;
        Past::Come { numbers: numbers | u8::from(is_new) << number, odd: odd != is_new }
    }

    fn verdict(self, last: u8) -> &'static str {
        match self {
            Past::Endless => "moot",
            Past::Come { numbers, odd } if numbers.count_ones() == last.into() => match odd {
                true => "satisfied",
                false => "violated",
            },
            _ => "undecided",
        }
    }
}

/// The rows where every event can happen.
pub fn rows(last: u8) -> Vec<String> {
    rows_over(last, 65535)
}

/// The rows where the events of a mask can happen. The first term must be (signal 3, and any
/// other), or mean the same over the mask.
pub fn rows_over(last: u8, mask: Mask) -> Vec<String> {
    rows_from(Past::Empty, last, mask)
}

/// The rows where signal 3 is never on: the first event decides nothing that a later one
/// would not.
pub fn rows_of_numbers(last: u8) -> Vec<String> {
    rows_from(Past::Come { numbers: 0, odd: false }, last, 0x00ff)
}

/// States numbered as a walk meets them, breadth-first and events ascending.
fn rows_from(start: Past, last: u8, mask: Mask) -> Vec<String> {
    let mut met = vec![start];
    let mut rows = Vec::new();
    while let Some(&past) = met.get(rows.len()) {
        let mut row = format!("{} {}", rows.len(), past.verdict(last));
        for event in 0..16 {
            if mask >> event & 1 == 0 {
                row += " 65535";
                continue;
            }
            let next = past.after(event, last);
            let state = met.iter().position(|&other| other == next).unwrap_or(met.len());
            if state == met.len() {
                met.push(next);
            }
            row += &format!(" {state}");
        }
        rows.push(row);
    }
    rows
}

#[cfg(test)]
mod tests {
    use super::*;

    /// By hand: one event shows none of the numbers or one, without signal 3 and with it.
    #[test]
    fn the_first_rows_and_the_last_are_known() {
        let (full, merged) = (rows(7), rows(6));
        assert_eq!(full[0], "0 undecided 1 2 3 4 5 6 7 8 1 9 10 11 12 13 14 15");
        assert_eq!(full[1], "1 undecided 1 2 3 4 5 6 7 8 1 2 3 4 5 6 7 8");
        assert_eq!(merged[0], "0 undecided 1 2 3 4 5 6 7 8 1 9 10 11 12 13 14 8");
        assert_eq!(merged[1], "1 undecided 1 2 3 4 5 6 7 1 1 2 3 4 5 6 7 1");
        assert_eq!(merged[8], format!("8 moot{}", " 8".repeat(16)));
        assert_eq!(full[254], format!("254 satisfied{}", " 254".repeat(16)));
        assert_eq!(full[255], format!("255 violated{}", " 255".repeat(16)));
        assert_eq!(merged[127], format!("127 violated{}", " 127".repeat(16)));
        assert_eq!(merged[128], format!("128 satisfied{}", " 128".repeat(16)));
    }

    #[test]
    fn there_are_256_states_and_129() {
        let undecided =
            |rows: &[String]| rows.iter().filter(|row| row.contains("undecided")).count();
        assert_eq!((rows(7).len(), undecided(&rows(7))), (256, 254));
        assert_eq!((rows(6).len(), undecided(&rows(6))), (129, 126));
    }

    /// By hand: without event 8, state 1 is left by the same events as before; without 7 and
    /// 15, nothing is endless; without signal 3, the start is "none has come".
    #[test]
    fn impossible_events_have_their_columns() {
        let (alone, below) = (rows_over(7, 0xfeff), rows_over(6, 0x7f7f));
        assert_eq!(alone[0], "0 undecided 1 2 3 4 5 6 7 8 65535 9 10 11 12 13 14 15");
        assert_eq!(alone.len(), 256);
        assert_eq!(below[0], "0 undecided 1 2 3 4 5 6 7 65535 1 8 9 10 11 12 13 65535");
        assert_eq!(
            (below.len(), below.iter().filter(|row| row.contains("moot")).count()),
            (128, 0)
        );
        let numbers = rows_of_numbers(7);
        assert_eq!(numbers[0], format!("0 undecided 0 1 2 3 4 5 6 7{}", " 65535".repeat(8)));
        assert_eq!(numbers.len(), 128);
    }
}
