//! The builder of the smallest table, from the bytes of a rule file to the
//! bytes of a table. Nothing of the search for traces is used here.
//!
//! A label says of a position which temporal obligations hold there. The event
//! at a position and the label of the next position fix the label of the
//! position, so labels run backwards. The residual property after a list of
//! events is the set of those labels of continuations that, behind the list,
//! make the rule true; the walk steps these sets by events. Only the events that can
//! happen are looked at, under numbers of their own, until the table is written.

mod groups;
mod labels;
mod walk;

use crate::mask;
use crate::refusal::Refusal;
use crate::rule::Rule;
use crate::table::{row_length, HEADER_KIND, HEADER_LENGTH, NO_SUCCESSOR, STATE_KIND};
use groups::Groups;
use labels::Labels;
use walk::Walk;

/// The most events over four signals.
const EVENTS: usize = 16;
/// The most states of a table.
const STATES: usize = 256;

/// Builds the table of a rule file at the front of `output` and returns its
/// length. Bytes past the table keep their values; a refusal changes none.
pub fn build(file: &[u8], output: &mut [u8]) -> Result<usize, Refusal> {
    let rule = Rule::read(file)?;
    let labels = Labels::of(&rule);
    let walk = Walk::over(&labels).ok_or(Refusal::new(11, 0))?;
    let groups = Groups::of(&walk);
    let length = HEADER_LENGTH + groups.count() * row_length(rule.signals);
    let table = output.get_mut(..length).ok_or(Refusal::new(10, 0))?;
    write_table(table, &rule, &walk, &groups);
    Ok(length)
}

/// Writes the table; each group is shown by its first state.
fn write_table(table: &mut [u8], rule: &Rule, walk: &Walk, groups: &Groups) {
    let (header, rows) = table.split_at_mut(HEADER_LENGTH);
    let [count_low, count_high] = (groups.count() as u16).to_le_bytes();
    let [kind_low, kind_high] = HEADER_KIND.to_le_bytes();
    header.copy_from_slice(&[5, 0, kind_low, kind_high, rule.signals, count_low, count_high]);
    let length = row_length(rule.signals);
    let [kind_low, kind_high] = STATE_KIND.to_le_bytes();
    for (number, row) in rows.chunks_exact_mut(length).enumerate() {
        let (verdict, successors) = groups.row(walk, number as u8);
        row[..5].copy_from_slice(&[(length - 2) as u8, 0, kind_low, kind_high, verdict.to_byte()]);
        row[5..].as_chunks_mut().0.fill(NO_SUCCESSOR.to_le_bytes());
        for (event, &successor) in mask::events(rule.possible()).zip(&successors) {
            let place = 5 + 2 * usize::from(event);
            row[place..place + 2].copy_from_slice(&u16::from(successor).to_le_bytes());
        }
    }
}

#[cfg(test)]
mod tests {
    use super::*;
    use crate::random_masks::{any_mask, Leaving};
    use crate::random_rules::Shape;
    use crate::rng::Rng;
    use crate::rule::kind;
    use crate::table::{Monitor, Verdict};
    use crate::vectors::mask_samples::{due_together, never_together, valve_block};
    use crate::vectors::mask_samples::{APART, BELOW_SEVEN};
    use crate::vectors::rule_samples::{full_table, known_rules, merged_states};
    use crate::vectors::rule_samples::{nexts, p12, p3, p9, rule, shared_nexts, P, Q};

    const ROOM: usize = 9479;

    fn table_of(rule: &Rule) -> Vec<u8> {
        let mut output = vec![0; ROOM];
        let length = build(&rule.to_bytes(), &mut output).unwrap();
        output.truncate(length);
        output
    }

    /// The rows as verdict byte and successors.
    fn rows_of(rule: &Rule) -> Vec<(u8, Vec<u16>)> {
        let states = Monitor::open(&table_of(rule)).unwrap().states;
        states.into_iter().map(|state| (state.verdict.to_byte(), state.successors)).collect()
    }

    fn assert_rows(rule: &Rule, expected: &[(u8, &[u16])]) {
        let expected: Vec<(u8, Vec<u16>)> =
            expected.iter().map(|&(verdict, successors)| (verdict, successors.to_vec())).collect();
        assert_eq!(rows_of(rule), expected, "{rule}");
    }

    #[test]
    fn one_signal_has_the_tables_of_document_01() {
        let eventually = (kind::EVENTUALLY, 0, 0);
        let always = (kind::ALWAYS, 0, 0);
        assert_rows(&rule(1, &[(kind::TRUE, 0, 0)]), &[(1, &[0, 0])]);
        assert_rows(&rule(1, &[(kind::FALSE, 0, 0)]), &[(2, &[0, 0])]);
        assert_rows(&p3(), &[(0, &[1, 2]), (2, &[1, 1]), (1, &[2, 2])]);
        assert_rows(&rule(1, &[P, always]), &[(0, &[1, 0]), (2, &[1, 1])]);
        assert_rows(&rule(1, &[P, eventually]), &[(0, &[0, 1]), (1, &[1, 1])]);
        assert_rows(&rule(1, &[P, eventually, (kind::ALWAYS, 1, 0)]), &[(3, &[0, 0])]);
        assert_rows(&rule(1, &[P, always, (kind::EVENTUALLY, 1, 0)]), &[(3, &[0, 0])]);
    }

    #[test]
    fn two_signals_have_the_tables_of_document_01() {
        let violated: (u8, &[u16]) = (2, &[1, 1, 1, 1]);
        let either = [(0, &[1, 0, 0, 0][..]), violated];
        let until = (kind::UNTIL, 0, 1);
        assert_rows(&p9(), &[(0, &[1, 0, 2, 2]), violated, (1, &[2, 2, 2, 2])]);
        assert_rows(&rule(2, &[P, Q, (kind::OR, 0, 1), (kind::ALWAYS, 2, 0)]), &either);
        assert_rows(&rule(2, &[P, Q, until, (kind::ALWAYS, 2, 0)]), &either);
        assert_rows(&p12(), &[(0, &[0, 1, 0, 1]), (0, &[1, 2, 0, 1]), (2, &[2, 2, 2, 2])]);
        let fair = [P, Q, (kind::EVENTUALLY, 0, 0), (kind::ALWAYS, 2, 0), (kind::AND, 1, 3)];
        assert_rows(&rule(2, &fair), &[(0, &[1, 1, 2, 2]), violated, (3, &[2, 2, 2, 2])]);
    }

    /// Each single step allows it to be postponed, yet it has to come.
    #[test]
    fn an_until_that_never_comes_is_violated_at_once() {
        let never = [P, Q, (kind::UNTIL, 0, 1), (kind::NOT, 1, 0), (kind::ALWAYS, 3, 0)];
        let both = [never.as_slice(), &[(kind::AND, 2, 4)]].concat();
        assert_rows(&rule(2, &both), &[(2, &[0, 0, 0, 0])]);
    }

    #[test]
    fn the_shared_nexts_have_the_size_of_document_01() {
        assert_eq!(table_of(&shared_nexts(5)).len(), 5131);
        assert_eq!(rows_of(&shared_nexts(5)).len(), 244);
        assert_eq!(rows_of(&nexts(7)).len(), 10);
    }

    #[test]
    fn refuses_by_11_before_10() {
        let five = shared_nexts(5).to_bytes();
        let six = shared_nexts(6).to_bytes();
        assert_eq!(build(&five, &mut [0; 5130]), Err(Refusal::new(10, 0)));
        assert_eq!(build(&five, &mut [0; 5131]), Ok(5131));
        assert_eq!(build(&six, &mut [0; ROOM]), Err(Refusal::new(11, 0)));
        assert_eq!(build(&six, &mut []), Err(Refusal::new(11, 0)));
        assert_eq!(build(&nexts(8).to_bytes(), &mut []), Err(Refusal::new(8, 46)));
        assert_eq!(build(&p3().to_bytes()[..10], &mut []), Err(Refusal::new(1, 6)));
    }

    #[test]
    fn keeps_the_bytes_past_the_table_and_all_on_a_refusal() {
        let mut output = [165; 40];
        assert_eq!(build(&p3().to_bytes(), &mut output), Ok(34));
        assert_eq!(output[..7], [5, 0, 0, 2, 1, 3, 0]);
        assert_eq!(output[34..], [165; 6]);
        let mut short = [165; 33];
        assert!(build(&p3().to_bytes(), &mut short).is_err());
        assert_eq!(short, [165; 33]);
    }

    /// Written by hand, byte for byte, from document 02's words: p and q never come together.
    #[test]
    fn the_tables_of_the_valve_block_have_these_bytes() {
        let doses = [
            [5, 0, 0, 2, 2, 3, 0].as_slice(),
            &[11, 0, 1, 2, 0, 0, 0, 1, 0, 0, 0, 255, 255],
            &[11, 0, 1, 2, 0, 1, 0, 2, 0, 0, 0, 255, 255],
            &[11, 0, 1, 2, 2, 2, 0, 2, 0, 2, 0, 255, 255],
        ];
        assert_eq!(table_of(&p12().with_mask(APART)), doses.concat());
        let due = [
            [5, 0, 0, 2, 2, 2, 0].as_slice(),
            &[11, 0, 1, 2, 0, 0, 0, 1, 0, 0, 0, 255, 255],
            &[11, 0, 1, 2, 2, 1, 0, 1, 0, 1, 0, 255, 255],
        ];
        assert_eq!(table_of(&due_together().with_mask(APART)), due.concat());
        let never =
            [[5, 0, 0, 2, 2, 1, 0].as_slice(), &[11, 0, 1, 2, 1, 0, 0, 0, 0, 0, 0, 255, 255]];
        assert_eq!(table_of(&never_together().with_mask(APART)), never.concat());
        let block = [
            [5, 0, 0, 2, 2, 4, 0].as_slice(),
            &[11, 0, 1, 2, 0, 0, 0, 1, 0, 0, 0, 255, 255],
            &[11, 0, 1, 2, 0, 2, 0, 2, 0, 3, 0, 255, 255],
            &[11, 0, 1, 2, 2, 2, 0, 2, 0, 2, 0, 255, 255],
            &[11, 0, 1, 2, 0, 2, 0, 1, 0, 2, 0, 255, 255],
        ];
        assert_eq!(table_of(&valve_block()), block.concat());
    }

    /// The whole output and answer of building, into much room.
    fn answer(rule: &Rule) -> (Result<usize, Refusal>, Vec<u8>) {
        let mut output = vec![165; ROOM];
        (build(&rule.to_bytes(), &mut output), output)
    }

    #[test]
    fn a_full_mask_gives_the_bytes_of_none() {
        let mut rng = Rng::new(61);
        let shape = Shape { signals: 1..=4, temporal: 0..=7, nodes: 20 };
        let random: Vec<Rule> = (0..400).map(|_| shape.draw(&mut rng)).collect();
        for rule in known_rules().into_iter().chain(random) {
            let full = mask::full(rule.signals);
            assert_eq!(answer(&rule.clone().with_mask(full)), answer(&rule), "{rule}");
        }
    }

    /// Where one event can happen, one continuation satisfies the rule or breaks it.
    #[test]
    fn one_event_decides_every_rule() {
        let mut rng = Rng::new(62);
        let shape = Shape { signals: 1..=4, temporal: 0..=7, nodes: 20 };
        for _ in 0..400 {
            let rule = shape.draw(&mut rng);
            let mask = Leaving::One.draw(&mut rng, rule.signals);
            let rows = rows_of(&rule.clone().with_mask(mask));
            let [(verdict, successors)] = &rows[..] else { panic!("{rule} {rows:?}") };
            let verdict = Verdict::from_byte(*verdict);
            assert!([Some(Verdict::Satisfied), Some(Verdict::Violated)].contains(&verdict));
            let event = mask::events(mask).next().unwrap();
            let expected = |other: usize| if other == event.into() { 0 } else { 65535 };
            assert!(successors.iter().enumerate().all(|(other, &next)| next == expected(other)));
        }
    }

    /// Every row, in a table of the form that the reader admits.
    #[test]
    fn impossible_events_have_no_successor_in_any_row() {
        let mut rng = Rng::new(63);
        for _ in 0..400 {
            let rule = Shape::searchable().draw_interesting(&mut rng);
            let mask = any_mask(&mut rng, rule.signals);
            let table = table_of(&rule.with_mask(mask));
            assert_eq!(Monitor::open(&table).unwrap().possible(), mask);
        }
    }

    /// Signals 0 to 2 eventually show 7, or show it first and then something for ever: over events
    /// that never show it, neither says anything.
    #[test]
    fn rules_that_mean_the_same_over_a_mask_have_the_same_bytes() {
        let [full, merged] =
            [full_table(), merged_states()].map(|rule| rule.with_mask(BELOW_SEVEN));
        assert_eq!(table_of(&full), table_of(&merged));
        assert_ne!(table_of(&full_table()), table_of(&merged_states()));
    }
}
