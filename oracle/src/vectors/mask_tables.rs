//! Known rules where some events cannot happen, with their tables written by hand.

use super::build_cases::{case, known, ran, KnownCase, ROOM};
use super::edge_tables;
use super::mask_samples::{dosing, due_together, never_together, valve_block};
use super::mask_samples::{APART, APART_OF_THREE, BELOW_SEVEN, LOWER_HALF, NOT_ALONE, WITHOUT_Q};
use super::rule_samples::{flap_pair, nexts, p12, p3, p9, rule, shared_nexts, P, Q};
use super::rule_samples::{full_table, one_too_many, one_too_many_merged};
use crate::mask::Mask;
use crate::rule::{kind, Rule};

pub fn all() -> Vec<KnownCase> {
    let small =
        [valve_blocks(), together(), one_event(), one_signal(), two_signals(), full_masks()];
    let others = [refused(), runs(), nexts_with_masks(), edge_of_256()];
    small.into_iter().chain(others).flatten().collect()
}

/// Document 02's valve block: p and q never come together.
fn valve_blocks() -> Vec<KnownCase> {
    let doses = p12().with_mask(APART);
    let dose_rows =
        ["0 undecided 0 1 0 65535", "1 undecided 1 2 0 65535", "2 violated 2 2 2 65535"];
    // After a dose, state 1, only an acknowledgement helps: with the second event the next dose
    // is due, and no acknowledgement can come with it.
    let block_rows = [
        "0 undecided 0 1 0 65535",
        "1 undecided 2 2 3 65535",
        "2 violated 2 2 2 65535",
        "3 undecided 2 1 2 65535",
    ];
    // Where they can come together, both may be due at once, in states 2 and 3.
    let whole_rows = [
        "0 undecided 0 1 0 1",
        "1 undecided 2 3 4 5",
        "2 undecided 6 6 6 1",
        "3 undecided 6 6 6 5",
        "4 undecided 6 1 6 1",
        "5 undecided 6 3 6 5",
        "6 violated 6 6 6 6",
    ];
    let block = |events: &[u8], end| ran(valve_block(), &block_rows, 59, events, end);
    let whole = |events: &[u8], end| ran(dosing(), &whole_rows, ROOM, events, end);
    vec![
        known(doses.clone(), &dose_rows, "undecided none"),
        ran(doses.clone(), &dose_rows, 46, &[1, 0, 1], "state 2 violated 3"),
        ran(doses, &dose_rows, ROOM, &[1, 2, 1], "state 1 undecided none"),
        block(&[1, 0], "state 2 violated 2"),
        block(&[1, 2, 1, 2, 1, 1], "state 2 violated 6"),
        block(&[2, 1, 2], "state 3 undecided none"),
        whole(&[1, 0], "state 2 undecided none"),
        whole(&[1, 0, 1], "state 6 violated 3"),
        whole(&[1, 0, 3, 2, 1, 3], "state 5 undecided none"),
        case(valve_block(), 58, &[], "refused 10 at 0 kept"),
    ]
}

/// Rules about p and q at once, decided as soon as they cannot come together.
fn together() -> Vec<KnownCase> {
    let due = due_together();
    let masked = due.clone().with_mask(APART);
    let masked_rows = ["0 undecided 0 1 0 65535", "1 violated 1 1 1 65535"];
    let rows = ["0 undecided 0 1 0 1", "1 undecided 2 2 2 1", "2 violated 2 2 2 2"];
    let both = [P, Q, (kind::AND, 0, 1)];
    let often =
        rule(2, &[both.as_slice(), &[(kind::EVENTUALLY, 2, 0), (kind::ALWAYS, 3, 0)]].concat());
    let last = [(kind::NOT, 2, 0), (kind::ALWAYS, 3, 0), (kind::EVENTUALLY, 4, 0)];
    let at_last_never = rule(2, &[both.as_slice(), &last].concat());
    vec![
        ran(masked.clone(), &masked_rows, ROOM, &[1], "state 1 violated 1"),
        ran(masked, &masked_rows, 33, &[0, 2, 2], "state 0 undecided none"),
        ran(due.clone(), &rows, ROOM, &[1], "state 1 undecided none"),
        ran(due.with_mask(15), &rows, 46, &[1], "state 1 undecided none"),
        known(never_together().with_mask(APART), &["0 satisfied 0 0 0 65535"], "satisfied 0"),
        known(never_together(), &["0 undecided 0 0 0 1", "1 violated 1 1 1 1"], "undecided none"),
        // For ever both, and at last never both: no event tells, unless both cannot come.
        known(often.clone(), &["0 moot 0 0 0 0"], "moot 0"),
        known(often.with_mask(APART), &["0 violated 0 0 0 65535"], "violated 0"),
        known(at_last_never.clone(), &["0 moot 0 0 0 0"], "moot 0"),
        known(at_last_never.with_mask(APART), &["0 satisfied 0 0 0 65535"], "satisfied 0"),
    ]
}

/// Where one event can happen, there is one continuation, and every rule is decided.
fn one_event() -> Vec<KnownCase> {
    let (eventually, always) = ((kind::EVENTUALLY, 0, 0), (kind::ALWAYS, 0, 0));
    let rules = [
        p3(),
        rule(1, &[P, always]),
        rule(1, &[P, eventually]),
        rule(1, &[P, eventually, (kind::ALWAYS, 1, 0)]),
        rule(1, &[P, always, (kind::EVENTUALLY, 1, 0)]),
        nexts(7),
    ];
    let with = |rule: &Rule, mask, row: &str, end| known(rule.clone().with_mask(mask), &[row], end);
    let mut cases = Vec::new();
    for rule in &rules {
        cases.push(with(rule, 1, "0 violated 0 65535", "violated 0"));
        cases.push(with(rule, 2, "0 satisfied 65535 0", "satisfied 0"));
    }
    let none = " 65535";
    let (first, last) = (format!(" 0{}", none.repeat(15)), format!("{} 0", none.repeat(15)));
    let of_four = Rule { signals: 4, ..nexts(7) };
    cases.push(with(&of_four, 1, &format!("0 violated{first}"), "violated 0"));
    cases.push(with(&of_four, 0x8000, &format!("0 satisfied{last}"), "satisfied 0"));
    cases
}

/// Document 01's rules of one signal with a second one beside it, which nobody asks about.
fn one_signal() -> Vec<KnownCase> {
    let two = |rule: Rule| Rule { signals: 2, ..rule };
    let with = |nodes: &[(u8, u8, u8)], mask, rows: &[&str], end| {
        known(rule(2, nodes).with_mask(mask), rows, end)
    };
    let (eventually, always) = ((kind::EVENTUALLY, 0, 0), (kind::ALWAYS, 0, 0));
    vec![
        // Without event 0 the walk meets p before not p.
        known(
            two(p3()).with_mask(0b1110),
            &["0 undecided 65535 1 2 1", "1 satisfied 65535 1 1 1", "2 violated 65535 2 2 2"],
            "undecided none",
        ),
        known(
            two(p3()).with_mask(0b0110),
            &[
                "0 undecided 65535 1 2 65535",
                "1 satisfied 65535 1 1 65535",
                "2 violated 65535 2 2 65535",
            ],
            "undecided none",
        ),
        with(&[P, always], 0b1010, &["0 satisfied 65535 0 65535 0"], "satisfied 0"),
        with(&[P, always], 0b0101, &["0 violated 0 65535 0 65535"], "violated 0"),
        with(
            &[P, always],
            0b1001,
            &["0 undecided 1 65535 65535 0", "1 violated 1 65535 65535 1"],
            "undecided none",
        ),
        with(&[P, eventually], 0b0101, &["0 violated 0 65535 0 65535"], "violated 0"),
        with(&[P, eventually], 0b1000, &["0 satisfied 65535 65535 65535 0"], "satisfied 0"),
        with(
            &[P, eventually],
            0b0110,
            &["0 undecided 65535 1 0 65535", "1 satisfied 65535 1 1 65535"],
            "undecided none",
        ),
        with(&[P, eventually, (kind::ALWAYS, 1, 0)], 0b0110, &["0 moot 65535 0 0 65535"], "moot 0"),
        with(
            &[P, eventually, (kind::ALWAYS, 1, 0)],
            0b1010,
            &["0 satisfied 65535 0 65535 0"],
            "satisfied 0",
        ),
        with(
            &[P, always, (kind::EVENTUALLY, 1, 0)],
            0b0101,
            &["0 violated 0 65535 0 65535"],
            "violated 0",
        ),
    ]
}

/// p until q, q and always eventually p, always (p or q), and the pair of limit switches.
fn two_signals() -> Vec<KnownCase> {
    let fair = rule(2, &[P, Q, (kind::EVENTUALLY, 0, 0), (kind::ALWAYS, 2, 0), (kind::AND, 1, 3)]);
    let either = rule(2, &[P, Q, (kind::OR, 0, 1), (kind::ALWAYS, 2, 0)]);
    let with = |rule: &Rule, mask: Mask, rows: &[&str], end| {
        known(rule.clone().with_mask(mask), rows, end)
    };
    let (until, flaps) = (p9(), flap_pair());
    vec![
        with(
            &until,
            0b0110,
            &["0 undecided 65535 0 1 65535", "1 satisfied 65535 1 1 65535"],
            "undecided none",
        ),
        with(
            &until,
            0b1101,
            &["0 undecided 1 65535 2 2", "1 violated 1 65535 1 1", "2 satisfied 2 65535 2 2"],
            "undecided none",
        ),
        with(&until, 0b0011, &["0 violated 0 0 65535 65535"], "violated 0"),
        with(&until, 0b1100, &["0 satisfied 65535 65535 0 0"], "satisfied 0"),
        with(&fair, 0b1100, &["0 moot 65535 65535 0 0"], "moot 0"),
        with(&fair, 0b0011, &["0 violated 0 0 65535 65535"], "violated 0"),
        with(
            &fair,
            0b0110,
            &[
                "0 undecided 65535 1 2 65535",
                "1 violated 65535 1 1 65535",
                "2 moot 65535 2 2 65535",
            ],
            "undecided none",
        ),
        with(&fair, 0b1000, &["0 satisfied 65535 65535 65535 0"], "satisfied 0"),
        with(&either, 0b1110, &["0 satisfied 65535 0 0 0"], "satisfied 0"),
        with(
            &either,
            0b0101,
            &["0 undecided 1 65535 0 65535", "1 violated 1 65535 1 65535"],
            "undecided none",
        ),
        with(&flaps, 0b0110, &["0 satisfied 65535 0 0 65535"], "satisfied 0"),
        with(&flaps, 0b1001, &["0 violated 0 65535 65535 0"], "violated 0"),
        with(
            &flaps,
            APART,
            &["0 undecided 1 0 0 65535", "1 violated 1 1 1 65535"],
            "undecided none",
        ),
    ]
}

/// A mask of all events gives the bytes of none.
fn full_masks() -> Vec<KnownCase> {
    let p12_rows = ["0 undecided 0 1 0 1", "1 undecided 1 2 0 1", "2 violated 2 2 2 2"];
    let p9_rows = ["0 undecided 1 0 2 2", "1 violated 1 1 1 1", "2 satisfied 2 2 2 2"];
    let p3_rows = ["0 undecided 1 2", "1 violated 1 1", "2 satisfied 2 2"];
    let of_four = Rule { signals: 4, ..nexts(0) };
    let of_four_rows = [
        "0 undecided 1 2 1 2 1 2 1 2 1 2 1 2 1 2 1 2",
        "1 violated 1 1 1 1 1 1 1 1 1 1 1 1 1 1 1 1",
        "2 satisfied 2 2 2 2 2 2 2 2 2 2 2 2 2 2 2 2",
    ];
    vec![
        known(p12().with_mask(15), &p12_rows, "undecided none"),
        known(p9().with_mask(15), &p9_rows, "undecided none"),
        known(p3().with_mask(3), &p3_rows, "undecided none"),
        known(of_four.with_mask(65535), &of_four_rows, "undecided none"),
    ]
}

/// The mask's record begins with byte 6, and the nodes behind it with byte 12.
fn refused() -> Vec<KnownCase> {
    let refused = |rule, output, by: &str| case(rule, output, &[], &format!("refused {by} kept"));
    let eighth = nexts(8).with_mask(3);
    let of_three = Rule { signals: 3, ..p12() };
    vec![
        refused(p12().with_mask(0), ROOM, "17 at 6"),
        refused(p12().with_mask(0), 0, "17 at 6"),
        refused(p3().with_mask(0), ROOM, "17 at 6"),
        refused(nexts(8).with_mask(0), ROOM, "17 at 6"),
        refused(shared_nexts(6).with_mask(0), ROOM, "17 at 6"),
        refused(full_table().with_mask(0), ROOM, "17 at 6"),
        refused(p3().with_mask(4), ROOM, "7 at 6"),
        refused(p3().with_mask(7), ROOM, "7 at 6"),
        refused(p12().with_mask(16), ROOM, "7 at 6"),
        refused(p12().with_mask(23), 0, "7 at 6"),
        refused(p12().with_mask(0x0800), ROOM, "7 at 6"),
        refused(of_three.clone().with_mask(0x0100), ROOM, "7 at 6"),
        refused(of_three.with_mask(65535), ROOM, "7 at 6"),
        refused(eighth, ROOM, "8 at 52"),
        refused(shared_nexts(6).with_mask(APART_OF_THREE), ROOM, "11 at 0"),
        refused(shared_nexts(6).with_mask(APART_OF_THREE), 0, "11 at 0"),
        refused(never_together().with_mask(APART), 19, "10 at 0"),
    ]
}

/// Runs over events of which some cannot happen: the first such event is refused, of either kind,
/// also where a verdict stands already.
fn runs() -> Vec<KnownCase> {
    let rows = ["0 undecided 0 1 0 65535", "1 undecided 1 2 0 65535", "2 violated 2 2 2 65535"];
    let run = |events: &[u8], end| ran(p12().with_mask(APART), &rows, 46, events, end);
    let never = |events: &[u8], end| {
        ran(never_together().with_mask(APART), &["0 satisfied 0 0 0 65535"], 20, events, end)
    };
    vec![
        run(&[3], "refused 12 at 0"),
        run(&[1, 3], "refused 12 at 1"),
        run(&[0, 1, 2, 3, 3], "refused 12 at 3"),
        run(&[1, 0, 1, 3], "refused 12 at 3"),
        run(&[1, 1, 0, 0, 0, 2, 3, 4], "refused 12 at 6"),
        run(&[0, 3, 4], "refused 12 at 1"),
        run(&[0, 4, 3], "refused 12 at 1"),
        run(&[0, 0, 255, 3], "refused 12 at 2"),
        run(&[2, 19], "refused 12 at 1"),
        never(&[3], "refused 12 at 0"),
        never(&[0, 1, 2, 2, 3], "refused 12 at 4"),
        never(&[0, 1, 2], "state 0 satisfied 0"),
    ]
}

/// Where q cannot come, the rule with six nexts says only "always (p implies M)", and what is
/// left is which of the last six events had p: 64 sets and one that is violated.
fn nexts_with_masks() -> Vec<KnownCase> {
    let row = |number, verdict, successors: [u16; 4]| {
        let [a, b, c, d] = successors;
        format!("{number} {verdict} {a} {b} 65535 65535 {c} {d} 65535 65535")
    };
    let first = row(0, "undecided", [0, 1, 0, 1]);
    let second = row(1, "undecided", [2, 3, 2, 3]);
    let before = format!("built 1372 signals 3 states 65 | {first}  | {second} ");
    let after = " run state 3 undecided none kept";
    let rule = shared_nexts(6).with_mask(WITHOUT_Q);
    vec![KnownCase::around_rows(rule, ROOM, &[4, 5, 1], &before, after)]
}

/// The rules at the edge of 256: where signal 3 never comes alone, the rules with one property too
/// many mean the same as those with 256. Where 7 never comes, or signal 3, there are 128 states.
fn edge_of_256() -> Vec<KnownCase> {
    let alone = edge_tables::rows_over(7, NOT_ALONE);
    let merged = edge_tables::rows_over(6, NOT_ALONE);
    let below = edge_tables::rows_over(6, BELOW_SEVEN);
    let numbers = edge_tables::rows_of_numbers(7);
    let none = "state 0 undecided none";
    let of = |rule: Rule, mask| rule.with_mask(mask);
    vec![
        ran(
            of(one_too_many(), NOT_ALONE),
            &alone,
            9479,
            &[9, 2, 3, 4, 5, 6, 7],
            "state 255 violated 7",
        ),
        ran(of(one_too_many(), NOT_ALONE), &alone, ROOM, &[9, 2, 8, 4], "refused 12 at 2"),
        case(of(one_too_many(), NOT_ALONE), 9478, &[], "refused 10 at 0 kept"),
        ran(of(one_too_many_merged(), NOT_ALONE), &merged, 4780, &[7, 1], "state 8 moot 1"),
        ran(of(full_table(), BELOW_SEVEN), &below, 4743, &[], none),
        ran(
            of(one_too_many(), LOWER_HALF),
            &numbers,
            4743,
            &[0, 1, 2, 3, 4, 5, 6, 7],
            "state 127 satisfied 8",
        ),
    ]
}
