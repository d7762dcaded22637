//! The lines expected for the build stream, from tables that were certified.

use std::collections::BTreeMap;
use std::fmt::Write;

use super::build_cases::{Question, ROOM};
use crate::builder;
use crate::certify::{certify_all, different_residuals, lists_over, Summary};
use crate::refusal::Refusal;
use crate::rule::Rule;
use crate::table::Monitor;

/// The value of an output byte before building.
const PAINT: u8 = 165;

/// The right to write lines: made only by certifying every table in question.
pub struct Answers {
    pub summary: Summary,
}

impl Answers {
    pub fn certified(questions: &[&Question]) -> Result<Self, String> {
        let rules: BTreeMap<Vec<u8>, &Rule> =
            questions.iter().map(|question| (question.rule.to_bytes(), &question.rule)).collect();
        let mut tables = Vec::new();
        for (file, rule) in rules {
            let mut output = vec![PAINT; ROOM.into()];
            match builder::build(&file, &mut output) {
                Ok(length) => tables.push((rule, output[..length].to_vec())),
                Err(Refusal { number: 11, .. }) => confirm_refusal_11(rule)?,
                Err(refusal) if Rule::read(&file) == Err(refusal) => {}
                Err(refusal) => return Err(format!("{rule}: {refusal}")),
            }
        }
        tables.sort_by_key(|(_, table)| std::cmp::Reverse(table.len()));
        Ok(Answers { summary: certify_all(&tables)? })
    }

    /// The line for a question that was among those certified.
    pub fn line(&self, question: &Question) -> String {
        let mut output = vec![PAINT; question.output.into()];
        let built = builder::build(&question.rule.to_bytes(), &mut output);
        let mut line = match built {
            Ok(length) => built_line(&output[..length], &question.events),
            Err(refusal) => refusal.to_string(),
        };
        if output[built.unwrap_or(0)..].iter().all(|&byte| byte == PAINT) {
            line.push_str(" kept");
        }
        line
    }
}

fn built_line(table: &[u8], events: &[u8]) -> String {
    let monitor = Monitor::open(table).expect("the builder writes a table");
    let counts = format!("signals {} states {}", monitor.signals, monitor.states.len());
    let mut line = format!("built {} {counts}", table.len());
    for (number, state) in monitor.states.iter().enumerate() {
        write!(line, " | {number} {} ", state.verdict).expect("a string takes all");
        for successor in &state.successors {
            write!(line, "{successor} ").expect("a string takes all");
        }
    }
    let outcome = match monitor.run(0, events) {
        Ok(run) => run.to_string(),
        Err(refusal) => refusal.to_string(),
    };
    line + " run " + &outcome
}

/// Finds more than 256 lists that leave different properties, in one of the two
/// ways that are known.
fn confirm_refusal_11(rule: &Rule) -> Result<(), String> {
    let counts = [behind_delays(), behind_numbers()].map(|way| way.count(rule));
    match counts.iter().any(|&count| count > 256) {
        true => Ok(()),
        false => Err(format!("{rule}: refused by 11, and {counts:?} remaining properties found")),
    }
}

/// Lists, and continuations that tell apart what they leave.
struct Way {
    lists: Vec<Vec<u8>>,
    continuations: Vec<Vec<u8>>,
}

impl Way {
    /// The lists leave at least so many different properties.
    fn count(&self, rule: &Rule) -> usize {
        different_residuals(rule, &self.lists, &self.continuations)
    }
}

/// For document 01's six nexts: six events, each of them none, signal 0 or
/// signal 1, told apart by what signal 2 does in the six events behind them.
fn behind_delays() -> Way {
    let followed_by_none = |stem: Vec<u8>| [&stem[..], &[0]].concat();
    Way {
        lists: lists_over(&[0, 1, 2], 6),
        continuations: lists_over(&[0, 4], 6).into_iter().map(followed_by_none).collect(),
    }
}

/// For the rules at the edge of 256: no event at all, and each event followed by
/// each set of numbers from 1 to 7, as signals 0 to 2 show them. Told apart by all
/// numbers, all but one, signal 3 with the first of them, and 1 for ever behind them.
fn behind_numbers() -> Way {
    let numbers_of = |set: u8| (1..=7).filter(move |number| set >> number & 1 == 1);
    let behind = |event: u8| {
        let sets = (0..=254).step_by(2);
        sets.map(move |set| [event].into_iter().chain(numbers_of(set)).collect::<Vec<u8>>())
    };
    let all_but = |left_out: u8| numbers_of(!(1 << left_out)).chain([0]).collect::<Vec<u8>>();
    let others = [vec![9, 2, 3, 4, 5, 6, 7, 0], vec![1, 2, 3, 4, 5, 6, 7, 1]];
    Way {
        lists: [vec![]].into_iter().chain((0..16).flat_map(behind)).collect(),
        continuations: (0..=7).map(all_but).chain(others).collect(),
    }
}

#[cfg(test)]
mod tests {
    use super::super::mask_samples::{APART_OF_THREE, NOT_ALONE, WITHOUT_Q};
    use super::super::rule_samples::{edge_rules, p12, p3, shared_nexts};
    use super::super::rule_samples::{one_too_many, one_too_many_merged};
    use super::*;

    fn line(rule: Rule, output: u16, events: &[u8]) -> String {
        let question = Question { rule, output, events: events.to_vec() };
        Answers::certified(&[&question]).unwrap().line(&question)
    }

    #[test]
    fn lines_have_their_form() {
        let table =
            "built 34 signals 1 states 3 | 0 undecided 1 2  | 1 violated 1 1  | 2 satisfied 2 2 ";
        assert_eq!(line(p3(), 40, &[1]), format!("{table} run state 2 satisfied 1 kept"));
        assert_eq!(line(p3(), 34, &[1, 2]), format!("{table} run refused 12 at 1 kept"));
        assert_eq!(line(p3(), 33, &[]), "refused 10 at 0 kept");
        assert!(line(p12(), ROOM, &[1, 0, 1]).ends_with("run state 2 violated 3 kept"));
    }

    #[test]
    fn six_nexts_leave_729_properties_and_the_violated_one() {
        let way = behind_delays();
        assert_eq!((way.lists.len(), way.continuations.len()), (729, 64));
        assert_eq!(way.count(&shared_nexts(6)), 729);
        assert!(confirm_refusal_11(&shared_nexts(6)).is_ok());
        assert!(confirm_refusal_11(&shared_nexts(5)).is_err());
    }

    #[test]
    fn masks_leave_fewer_properties_or_as_many() {
        let six = |mask| behind_delays().count(&shared_nexts(6).with_mask(mask));
        assert_eq!([APART_OF_THREE, WITHOUT_Q].map(six), [729, 64]);
        let edge = |rule: Rule| behind_numbers().count(&rule.with_mask(NOT_ALONE));
        assert_eq!([one_too_many(), one_too_many_merged()].map(edge), [256, 256]);
    }

    #[test]
    fn the_rules_at_the_edge_leave_256_properties_and_257() {
        let way = behind_numbers();
        assert_eq!((way.lists.len(), way.continuations.len()), (1 + 16 * 128, 10));
        for (rule, count) in edge_rules().iter().zip([256, 256, 257, 257]) {
            assert_eq!(way.count(rule), count, "{rule}");
            assert_eq!(confirm_refusal_11(rule).is_ok(), count > 256, "{rule}");
        }
    }
}
