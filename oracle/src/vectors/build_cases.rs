//! The cases of the build stream: document 01's table of known rules, document
//! 02's counts between two bounds, the rules at the edge of 256, rules where some
//! events cannot happen, and rules made at random. The results of the known rules are
//! written out by hand from document 01, or, for seven nexts, the counts and the edge,
//! counted; only the rows of the tables with 244 and with 65 states, and the lines of
//! the random rules, come from certified tables.

use super::build_answers::Answers;
use super::build_samples;
use super::edge_tables;
use super::mask_tables;
use super::rule_faults::refused_by_mask;
use super::rule_samples::{always, counted_until, flap_pair, longest_file};
use super::rule_samples::{full_table, merged_states, one_too_many, one_too_many_merged};
use super::rule_samples::{nexts, p12, p3, p9, rule, shared_nexts, NodeBytes, P, Q};
use super::{append_counted, Case};
use crate::certify::Summary;
use crate::mask;
use crate::rule::{kind, FormulaNode, Rule};

/// A rule to build into an output of so many bytes and the events of a run over
/// its table.
#[derive(Clone, Debug)]
pub struct Question {
    pub rule: Rule,
    pub output: u16,
    pub events: Vec<u8>,
}

/// A question and the line expected for it.
pub struct BuildCase {
    question: Question,
    expected: String,
}

impl Case for BuildCase {
    fn append_to(&self, stream: &mut Vec<u8>) {
        append_counted(stream, &self.question.rule.to_bytes());
        stream.extend(self.question.output.to_le_bytes());
        append_counted(stream, &self.question.events);
    }

    fn expected_line(&self) -> String {
        self.expected.clone()
    }

    fn brought_by_masks(&self) -> Option<&'static str> {
        let Question { rule, events, .. } = &self.question;
        let is_run = self.expected.contains("run refused 12");
        let refused = events.iter().find(|&&event| !mask::has(rule.possible(), event));
        match refused {
            Some(&event) if is_run && event < 1 << rule.signals => {
                Some("12 by an impossible event")
            }
            _ => refused_by_mask(&rule.to_bytes()),
        }
    }
}

/// Room for any table.
pub const ROOM: u16 = 9600;

/// Every case, if all tables are certified and the lines written by hand are
/// those of the certified tables.
pub fn all() -> Result<(Vec<BuildCase>, Summary), String> {
    let known = known_rules();
    let random = build_samples::random_questions();
    let questions: Vec<&Question> =
        known.iter().map(|case| &case.question).chain(&random).collect();
    let answers = Answers::certified(&questions)?;
    let mut cases = Vec::new();
    for case in known {
        let expected = answers.line(&case.question);
        if !case.is_answered_by(&expected) {
            return Err(format!("by hand it is {:?}, and not {expected:?}", case.written));
        }
        cases.push(BuildCase { question: case.question, expected });
    }
    cases.extend(random.into_iter().map(|question| {
        let expected = answers.line(&question);
        BuildCase { question, expected }
    }));
    Ok((cases, answers.summary))
}

/// A known rule and what was written of it by hand.
pub struct KnownCase {
    question: Question,
    written: Written,
}

#[derive(Debug)]
enum Written {
    /// The whole line.
    Line(String),
    /// The line without the rows.
    LineAroundRows { before: String, after: String },
}

impl KnownCase {
    /// A rule of whose line only the beginning and the end are written.
    pub fn around_rows(rule: Rule, output: u16, events: &[u8], before: &str, after: &str) -> Self {
        let question = Question { rule, output, events: events.to_vec() };
        let (before, after) = (before.to_string(), after.to_string());
        KnownCase { question, written: Written::LineAroundRows { before, after } }
    }

    fn is_answered_by(&self, line: &str) -> bool {
        match &self.written {
            Written::Line(written) => line == written,
            Written::LineAroundRows { before, after } => {
                line.starts_with(before) && line.ends_with(after)
            }
        }
    }
}

pub fn case(rule: Rule, output: u16, events: &[u8], line: &str) -> KnownCase {
    let question = Question { rule, output, events: events.to_vec() };
    KnownCase { question, written: Written::Line(line.to_string()) }
}

/// A rule whose table is given row by row, run on the empty list.
pub fn known(rule: Rule, rows: &[impl AsRef<str>], end: &str) -> KnownCase {
    ran(rule, rows, ROOM, &[], &format!("state 0 {end}"))
}

/// A rule whose table is given row by row, and how a run over it ends.
pub fn ran(
    rule: Rule,
    rows: &[impl AsRef<str>],
    output: u16,
    events: &[u8],
    end: &str,
) -> KnownCase {
    let signals = rule.signals;
    let length = 7 + rows.len() * (5 + 2 * (1 << signals));
    let count = rows.len();
    let rows: String = rows.iter().map(|row| format!(" | {} ", row.as_ref())).collect();
    let start = format!("built {length} signals {signals} states {count}");
    case(rule, output, events, &format!("{start}{rows} run {end} kept"))
}

/// The five shared nexts: the document gives their size and not their rows.
fn five_nexts(output: u16) -> KnownCase {
    let before = "built 5131 signals 3 states 244 | 0 undecided ";
    let after = " run state 0 undecided none kept";
    KnownCase::around_rows(shared_nexts(5), output, &[], before, after)
}

fn next_p_or_next_not_p() -> Rule {
    rule(1, &[P, (kind::NEXT, 0, 0), (kind::NOT, 0, 0), (kind::NEXT, 2, 0), (kind::OR, 1, 3)])
}

fn one_signal() -> Vec<KnownCase> {
    let always = (kind::ALWAYS, 0, 0);
    let eventually = (kind::EVENTUALLY, 0, 0);
    vec![
        known(rule(1, &[(kind::TRUE, 0, 0)]), &["0 satisfied 0 0"], "satisfied 0"),
        known(rule(1, &[(kind::FALSE, 0, 0)]), &["0 violated 0 0"], "violated 0"),
        known(p3(), &["0 undecided 1 2", "1 violated 1 1", "2 satisfied 2 2"], "undecided none"),
        known(rule(1, &[P, always]), &["0 undecided 1 0", "1 violated 1 1"], "undecided none"),
        known(rule(1, &[P, eventually]), &["0 undecided 0 1", "1 satisfied 1 1"], "undecided none"),
        known(rule(1, &[P, eventually, (kind::ALWAYS, 1, 0)]), &["0 moot 0 0"], "moot 0"),
        known(rule(1, &[P, always, (kind::EVENTUALLY, 1, 0)]), &["0 moot 0 0"], "moot 0"),
        known(next_p_or_next_not_p(), &["0 satisfied 0 0"], "satisfied 0"),
    ]
}

fn two_signals() -> Vec<KnownCase> {
    let violated = "1 violated 1 1 1 1";
    let until = (kind::UNTIL, 0, 1);
    let fair = [P, Q, (kind::EVENTUALLY, 0, 0), (kind::ALWAYS, 2, 0), (kind::AND, 1, 3)];
    let always_either = ["0 undecided 1 0 0 0", violated];
    vec![
        known(p9(), &["0 undecided 1 0 2 2", violated, "2 satisfied 2 2 2 2"], "undecided none"),
        known(
            rule(2, &[P, Q, (kind::OR, 0, 1), (kind::ALWAYS, 2, 0)]),
            &always_either,
            "undecided none",
        ),
        known(rule(2, &[P, Q, until, (kind::ALWAYS, 2, 0)]), &always_either, "undecided none"),
        known(
            p12(),
            &["0 undecided 0 1 0 1", "1 undecided 1 2 0 1", "2 violated 2 2 2 2"],
            "undecided none",
        ),
        known(
            rule(2, &fair),
            &["0 undecided 1 1 2 2", violated, "2 moot 2 2 2 2"],
            "undecided none",
        ),
        known(
            eventually_either_next(),
            &["0 undecided 0 1 0 1", "1 satisfied 1 1 1 1"],
            "undecided none",
        ),
        known(three_residuals(), &["0 moot 0 0 0 0"], "moot 0"),
    ]
}

/// eventually (p and (next q or next not q)): the bytes of eventually p over two signals
fn eventually_either_next() -> Rule {
    let nodes: [NodeBytes; 8] = [
        P,
        Q,
        (kind::NEXT, 1, 0),
        (kind::NOT, 1, 0),
        (kind::NEXT, 3, 0),
        (kind::OR, 2, 4),
        (kind::AND, 0, 5),
        (kind::EVENTUALLY, 6, 0),
    ];
    rule(2, &nodes)
}

/// (p and always eventually q) or (not p and eventually always q): three remaining properties, one state
fn three_residuals() -> Rule {
    let first = [P, Q, (kind::EVENTUALLY, 1, 0), (kind::ALWAYS, 2, 0), (kind::AND, 0, 3)];
    let second = [
        (kind::NOT, 0, 0),
        (kind::ALWAYS, 1, 0),
        (kind::EVENTUALLY, 6, 0),
        (kind::AND, 5, 7),
        (kind::OR, 4, 8),
    ];
    rule(2, &[first, second].concat())
}

/// Seven nexts over p look at the eighth event: eight states wait, one is satisfied and one violated.
fn seven_nexts() -> KnownCase {
    let mut rows: Vec<String> =
        (0..7).map(|s| format!("{s} undecided {} {}", s + 1, s + 1)).collect();
    rows.extend(["7 undecided 8 9", "8 violated 8 8", "9 satisfied 9 9"].map(String::from));
    known(nexts(7), &rows, "undecided none")
}

/// always exactly one of two limit switches: both off and both on violate it
fn flap_pairs() -> Vec<KnownCase> {
    let table = "built 33 signals 2 states 2 | 0 undecided 1 0 0 1  | 1 violated 1 1 1 1 ";
    let run = |events: &[u8], end| {
        case(flap_pair(), 33, events, &format!("{table} run state {end} kept"))
    };
    vec![
        run(&[], "0 undecided none"),
        run(&[1, 2, 2, 1], "0 undecided none"),
        run(&[1, 2, 0, 1], "1 violated 3"),
        run(&[1, 3], "1 violated 2"),
        case(flap_pair(), 32, &[], "refused 10 at 0 kept"),
        case(always(2, FormulaNode::between(3, 1, 5)), ROOM, &[], "refused 7 at 6 kept"),
    ]
}

/// A count of two signals under an always, of which some events violate it.
fn always_of_two() -> Vec<KnownCase> {
    let of = |mask, least, most, first| {
        let rule = always(2, FormulaNode::between(mask, least, most));
        known(rule, &[first, "1 violated 1 1 1 1"], "undecided none")
    };
    vec![
        of(3, 0, 0, "0 undecided 0 1 1 1"),
        of(3, 0, 1, "0 undecided 0 0 0 1"),
        of(3, 1, 2, "0 undecided 1 0 0 0"),
        of(3, 2, 2, "0 undecided 1 1 1 0"),
        of(1, 0, 0, "0 undecided 0 1 0 1"),
        of(2, 0, 0, "0 undecided 0 0 1 1"),
        of(2, 1, 3, "0 undecided 1 1 0 0"),
    ]
}

/// A count of two signals alone, with an upper count and without one.
fn counts_of_two() -> Vec<KnownCase> {
    let satisfied = |count| known(rule(2, &[count]), &["0 satisfied 0 0 0 0"], "satisfied 0");
    let violated = |count| known(rule(2, &[count]), &["0 violated 0 0 0 0"], "violated 0");
    let either = |count| {
        let rows = ["0 undecided 1 2 2 2", "1 violated 1 1 1 1", "2 satisfied 2 2 2 2"];
        known(rule(2, &[count]), &rows, "undecided none")
    };
    let at_least = |mask, least| FormulaNode::new(kind::AT_LEAST, mask, least);
    let count = FormulaNode::between;
    vec![
        satisfied(at_least(3, 0)),
        satisfied(count(3, 0, 4)),
        satisfied(count(3, 0, 2)),
        satisfied(count(0, 0, 0)),
        violated(at_least(3, 3)),
        violated(count(3, 3, 4)),
        violated(count(3, 2, 1)),
        violated(count(3, 4, 0)),
        violated(count(0, 1, 0)),
        either(at_least(3, 1)),
        either(count(3, 1, 4)),
        either(count(3, 1, 2)),
    ]
}

/// A count that no event meets, until q: q.
fn none_until_q() -> KnownCase {
    let nodes = [FormulaNode::between(3, 2, 0), Q.into(), FormulaNode::new(kind::UNTIL, 0, 1)];
    let rows = ["0 undecided 1 1 2 2", "1 violated 1 1 1 1", "2 satisfied 2 2 2 2"];
    known(rule(2, &nodes), &rows, "undecided none")
}

/// The last node of the longest file: three or four of four signals.
fn longest() -> KnownCase {
    let rows = [
        "0 undecided 1 1 1 1 1 1 1 2 1 1 1 2 1 2 2 2",
        "1 violated 1 1 1 1 1 1 1 1 1 1 1 1 1 1 1 1",
        "2 satisfied 2 2 2 2 2 2 2 2 2 2 2 2 2 2 2 2",
    ];
    known(longest_file(), &rows, "undecided none")
}

/// Counts below until and eventually, of three signals and of four.
fn counts_of_more() -> Vec<KnownCase> {
    let two_of_three = [FormulaNode::between(7, 2, 2), FormulaNode::new(kind::EVENTUALLY, 0, 0)];
    let none_of_four = always(4, FormulaNode::between(15, 0, 0));
    vec![
        none_until_q(),
        longest(),
        known(
            rule(3, &two_of_three),
            &["0 undecided 0 0 0 1 0 1 1 0", "1 satisfied 1 1 1 1 1 1 1 1"],
            "undecided none",
        ),
        known(
            none_of_four,
            &[
                "0 undecided 0 1 1 1 1 1 1 1 1 1 1 1 1 1 1 1",
                "1 violated 1 1 1 1 1 1 1 1 1 1 1 1 1 1 1 1",
            ],
            "undecided none",
        ),
        // From state 1 on, two or three are to be on until none is.
        known(
            counted_until(),
            &[
                "0 undecided 0 1 1 1 1 1 1 0 1 1 1 0 1 0 0 0",
                "1 undecided 0 2 2 1 2 1 1 1 2 1 1 1 1 1 1 2",
                "2 violated 2 2 2 2 2 2 2 2 2 2 2 2 2 2 2 2",
            ],
            "undecided none",
        ),
    ]
}

/// Every lower count of four signals alone, with every upper count and without one, which means 4.
fn bare_counts_of_four() -> Vec<KnownCase> {
    let of = |least| {
        let without = bare_count_of_four(FormulaNode::new(kind::AT_LEAST, 15, least), least, 4);
        let with = |most| bare_count_of_four(FormulaNode::between(15, least, most), least, most);
        (0..=4).map(with).chain([without]).collect::<Vec<_>>()
    };
    (0..=4).flat_map(of).collect()
}

/// The first event decides, unless all events do the same.
fn bare_count_of_four(node: FormulaNode, least: u8, most: u8) -> KnownCase {
    let is_met = |event: u8| {
        let on = event % 2 + event / 2 % 2 + event / 4 % 2 + event / 8 % 2;
        least <= on && on <= most
    };
    let verdict = |met| if met { "satisfied" } else { "violated" };
    let bare = rule(4, &[node]);
    let first = is_met(0);
    let like_the_first = (0..16).map(|event| is_met(event) == first);
    if like_the_first.clone().all(|is_like| is_like) {
        let row = format!("0 {}{}", verdict(first), " 0".repeat(16));
        return known(bare, &[row], &format!("{} 0", verdict(first)));
    }
    // Event 0 leads to state 1, and the first event that does otherwise to state 2.
    let successors: String =
        like_the_first.map(|is_like| if is_like { " 1" } else { " 2" }).collect();
    let rows = [
        format!("0 undecided{successors}"),
        format!("1 {}{}", verdict(first), " 1".repeat(16)),
        format!("2 {}{}", verdict(!first), " 2".repeat(16)),
    ];
    known(bare, &rows, "undecided none")
}

fn limits() -> Vec<KnownCase> {
    vec![
        five_nexts(5131),
        five_nexts(5132),
        seven_nexts(),
        case(nexts(8), ROOM, &[], "refused 8 at 46 kept"),
        case(shared_nexts(5), 5130, &[], "refused 10 at 0 kept"),
        case(shared_nexts(6), ROOM, &[], "refused 11 at 0 kept"),
        case(shared_nexts(6), 0, &[], "refused 11 at 0 kept"),
        case(p3(), 33, &[], "refused 10 at 0 kept"),
    ]
}

/// "P12 run on 1, 0, 1 ends violated, count 3. Run on 1, 2, 1 it ends undecided, count none."
fn runs() -> Vec<KnownCase> {
    let table = "built 46 signals 2 states 3 | 0 undecided 0 1 0 1  | 1 undecided 1 2 0 1  | 2 violated 2 2 2 2 ";
    vec![
        case(p12(), 46, &[1, 0, 1], &format!("{table} run state 2 violated 3 kept")),
        case(p12(), 46, &[1, 2, 1], &format!("{table} run state 1 undecided none kept")),
    ]
}

/// The rules at the edge of 256. Their tables are counted, and the ends of the runs by hand:
/// sets of j numbers come in the order 12, 13, .., 67, those where the first event had signal 3
/// on after the others. So the full table has the seven numbers in states 254 and 255, and {2, 3,
/// .., 7} is the last before them; the merged states have the six in 127 and 128, and 8 is the
/// first event that shows 7. Where there are 257 properties, it does not matter that a table of
/// them would have 130 states.
fn edge_of_256() -> Vec<KnownCase> {
    let full_rows = edge_tables::rows(7);
    let merged_rows = edge_tables::rows(6);
    let full = |output, events: &[u8], end| ran(full_table(), &full_rows, output, events, end);
    let merged =
        |output, events: &[u8], end| ran(merged_states(), &merged_rows, output, events, end);
    let refused = |rule, output, by| case(rule, output, &[], &format!("refused {by} at 0 kept"));
    vec![
        full(9479, &[], "state 0 undecided none"),
        full(ROOM, &[9, 2, 3, 4, 5, 6, 7], "state 255 violated 7"),
        full(9479, &[1, 2, 3, 4, 5, 6, 7, 8], "state 254 satisfied 7"),
        full(9480, &[15, 14, 5, 4, 3, 2], "state 253 undecided none"),
        full(9479, &[15, 14, 16, 4, 3, 2], "refused 12 at 2"),
        refused(full_table(), 9478, 10),
        merged(4780, &[], "state 0 undecided none"),
        merged(4780, &[7, 1], "state 8 moot 1"),
        merged(ROOM, &[9, 2, 3, 4, 5, 6], "state 128 satisfied 6"),
        refused(merged_states(), 4779, 10),
        refused(one_too_many(), ROOM, 11),
        refused(one_too_many(), 0, 11),
        refused(one_too_many_merged(), ROOM, 11),
        refused(one_too_many_merged(), 0, 11),
    ]
}

fn known_rules() -> Vec<KnownCase> {
    let document_01 = [one_signal(), two_signals(), limits(), runs()];
    let counts = [flap_pairs(), always_of_two(), counts_of_two(), counts_of_more()];
    let all = document_01.into_iter().chain(counts).flatten();
    all.chain(bare_counts_of_four()).chain(edge_of_256()).chain(mask_tables::all()).collect()
}

#[cfg(test)]
mod tests {
    use super::*;

    #[test]
    fn known_rules_are_answered_as_is_written_by_hand() {
        let known = known_rules();
        let questions: Vec<&Question> = known.iter().map(|case| &case.question).collect();
        let answers = Answers::certified(&questions).unwrap();
        for case in &known {
            let line = answers.line(&case.question);
            assert!(case.is_answered_by(&line), "{:?} and not {line}", case.written);
        }
        assert_eq!(answers.summary.rules(), 17 + 55 + 2 + 59);
    }

    #[test]
    fn another_line_is_no_answer() {
        let whole = case(p3(), 33, &[], "refused 10 at 0 kept");
        assert!(!whole.is_answered_by("refused 10 at 0"));
        let around = five_nexts(5131);
        let rows = "| 0 undecided 0 0 0 0 0 0 0 0  run state 0 undecided none kept";
        let line = |states| format!("built 5131 signals 3 states {states} {rows}");
        assert!(around.is_answered_by(&line(244)));
        assert!(!around.is_answered_by(&line(243)));
    }
}
