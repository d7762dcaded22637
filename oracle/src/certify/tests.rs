//! Right tables are certified, and tables with a fault are not.

use super::*;
use crate::builder;
use crate::random_masks::Leaving;
use crate::random_rules::Shape;
use crate::rng::Rng;
use crate::rule::kind;
use crate::vectors::mask_samples::{due_together, never_together, valve_block, APART};
use crate::vectors::rule_samples::{nexts, p12, p3, p9, rule, P, Q};

fn built(rule: &Rule) -> Monitor {
    let mut output = [0; 9479];
    let length = builder::build(&rule.to_bytes(), &mut output).unwrap();
    Monitor::open(&output[..length]).unwrap()
}

fn certified(rule: &Rule, monitor: &Monitor) -> Result<Report, String> {
    certify(rule, &monitor.to_bytes(), Bounds::of(rule))
}

/// The reason for which a table is refused.
fn reason(rule: &Rule, monitor: &Monitor) -> String {
    certified(rule, monitor).expect_err("the table has a fault")
}

/// p13: q and always eventually p
fn p13() -> Rule {
    rule(2, &[P, Q, (kind::EVENTUALLY, 0, 0), (kind::ALWAYS, 2, 0), (kind::AND, 1, 3)])
}

fn infinitely_often() -> Rule {
    rule(1, &[P, (kind::EVENTUALLY, 0, 0), (kind::ALWAYS, 1, 0)])
}

/// Known rules and some random ones with few states, some of each with a mask.
fn sample() -> Vec<Rule> {
    let mut rng = Rng::new(41);
    let shape = Shape { signals: 1..=2, temporal: 0..=3, nodes: 9 };
    let mut rules = vec![p3(), p9(), p12(), p13(), nexts(3), infinitely_often()];
    rules.extend((0..40).map(|_| shape.draw_interesting(&mut rng)));
    rules.extend([p12(), p13(), due_together()].map(|rule| rule.with_mask(APART)));
    rules.push(valve_block());
    for leaving in Leaving::EACH {
        rules.extend((0..4).map(|_| shape.draw_masked(&mut rng, leaving)));
    }
    rules
}

#[test]
fn right_tables_are_certified() {
    for rule in sample() {
        let monitor = built(&rule);
        let report = certified(&rule, &monitor).unwrap();
        assert_eq!(report.states.iter().sum::<usize>(), monitor.states.len());
    }
    assert_eq!(certified(&p13(), &built(&p13())).unwrap().states, [1, 0, 1, 1]);
}

#[test]
fn a_changed_verdict_is_refused() {
    for rule in sample() {
        let right = built(&rule);
        for state in 0..right.states.len() {
            for verdict in (0..4).filter_map(Verdict::from_byte) {
                let mut changed = right.clone();
                changed.states[state].verdict = verdict;
                assert_eq!(certified(&rule, &changed).is_ok(), changed == right, "{rule} {state}");
            }
        }
    }
}

#[test]
fn a_changed_successor_is_refused() {
    for rule in sample() {
        let right = built(&rule);
        for state in 0..right.states.len() {
            for event in rule.events().into_iter().map(usize::from) {
                for successor in 0..right.states.len() {
                    let mut changed = right.clone();
                    changed.states[state].successors[event] = successor as u16;
                    let is_ok = certified(&rule, &changed).is_ok();
                    assert_eq!(is_ok, changed == right, "{rule} {state} {event} {successor}");
                }
            }
        }
    }
}

/// The table with two states numbered the other way round.
fn swapped(monitor: &Monitor, first: usize, second: usize) -> Monitor {
    let mut swapped = monitor.clone();
    swapped.states.swap(first, second);
    for successor in swapped.states.iter_mut().flat_map(|state| &mut state.successors) {
        if usize::from(*successor) == first {
            *successor = second as u16;
        } else if usize::from(*successor) == second {
            *successor = first as u16;
        }
    }
    swapped
}

#[test]
fn two_states_swapped_are_refused() {
    assert!(reason(&p9(), &swapped(&built(&p9()), 1, 2)).contains("is met where state 1 is due"));
    for rule in sample() {
        let right = built(&rule);
        for first in 0..right.states.len() {
            for second in 0..first {
                assert!(certified(&rule, &swapped(&right, first, second)).is_err(), "{rule}");
            }
        }
    }
}

/// The last state stands twice; its copy is met last, from the state itself.
#[test]
fn a_state_split_in_two_is_refused() {
    for rule in sample() {
        let mut split = built(&rule);
        let last = split.states.len() - 1;
        let mut copy = split.states[last].clone();
        let copied = u16::try_from(split.states.len()).unwrap();
        if let Some(own) = copy.successors.iter().position(|&next| usize::from(next) == last) {
            split.states[last].successors[own] = copied;
            copy.successors[own] = copied;
            split.states.push(copy);
            assert!(reason(&rule, &split).starts_with("no list tells state"), "{rule}");
        }
    }
}

#[test]
fn a_state_that_is_never_met_is_refused() {
    let mut monitor = built(&p3());
    monitor.states.push(monitor.states[2].clone());
    assert_eq!(reason(&p3(), &monitor), "state 3 is never met");
}

#[test]
fn moot_and_undecided_are_not_the_same() {
    let mut undecided = built(&p13());
    undecided.states[2].verdict = Verdict::Undecided;
    assert_eq!(reason(&p13(), &undecided), "undecided state 2 leads to no decided one");
    let mut moot = built(&p9());
    moot.states[0].verdict = Verdict::Moot;
    assert_eq!(reason(&p9(), &moot), "moot state 0 leads to state 1");
}

/// A moot state in place of "in time satisfied": the table by itself is of the
/// right form, and only the lists behind it show the fault.
#[test]
fn moot_too_early_is_refused_by_the_lists_behind_it() {
    let waits = nexts(3);
    assert_eq!(built(&waits).states.len(), 6);
    let only_moot = built(&infinitely_often());
    let reason = reason(&waits, &only_moot);
    assert!(reason.starts_with("after [0, 0, 0, 0], shown as moot: no satisfying"), "{reason}");
}

#[test]
fn what_is_wrong_is_said_with_a_lasso() {
    let mut monitor = built(&p9());
    monitor.states[2].verdict = Verdict::Violated;
    monitor.states[1].verdict = Verdict::Satisfied;
    let expected = "after [0], shown as satisfied: a lasso breaks it: stem [] loop [0]";
    assert_eq!(reason(&p9(), &monitor), expected);
}

#[test]
fn bounds_that_are_too_small_are_said() {
    let pulse = rule(1, &[P, (kind::NEXT, 0, 0), (kind::NOT, 1, 0), (kind::AND, 0, 2)]);
    let table = built(&pulse).to_bytes();
    assert!(certify(&pulse, &table, Bounds { every: 2, two_events: 2 }).is_ok());
    let reason = certify(&pulse, &table, Bounds { every: 1, two_events: 1 }).unwrap_err();
    assert_eq!(reason, "after [], shown as undecided: no satisfying lasso within the bounds");
}

#[test]
fn the_wrong_number_of_signals_and_bad_bytes_are_refused() {
    assert_eq!(reason(&p3(), &built(&p9())), "the table has 2 signals");
    assert!(certify(&p3(), &[], Bounds::of(&p3())).unwrap_err().starts_with("not a table"));
}

/// The table with this successor for an event in every state.
fn with_column(monitor: &Monitor, event: usize, successor: u16) -> Monitor {
    let mut changed = monitor.clone();
    changed.states.iter_mut().for_each(|state| state.successors[event] = successor);
    changed
}

/// A table that takes an event that cannot happen, or not one that can, is refused for that alone.
#[test]
fn other_events_than_the_rules_are_refused() {
    let doses = p12().with_mask(APART);
    let changed = |event, successor| reason(&doses, &with_column(&built(&doses), event, successor));
    assert_eq!(changed(3, 1), "the table has the events of mask 15");
    assert_eq!(changed(2, 65535), "the table has the events of mask 3");
    assert_eq!(reason(&doses, &built(&p12())), "the table has the events of mask 15");
    assert_eq!(reason(&p12(), &built(&doses)), "the table has the events of mask 7");
    let mut uneven = built(&doses);
    uneven.states[1].successors[3] = 1;
    assert_eq!(reason(&doses, &uneven), "not a table: refused 14 at 0");
}

/// The right table of a rule without its mask, with the columns of impossible events struck out,
/// speaks too late.
#[test]
fn a_table_that_knows_no_mask_is_refused() {
    let due = due_together();
    let late = with_column(&built(&due), 3, 65535);
    let expected = "after [1], shown as undecided: no satisfying lasso within the bounds";
    assert_eq!(reason(&due.with_mask(APART), &late), expected);
    let late = with_column(&built(&never_together()), 3, 65535);
    assert_eq!(reason(&never_together().with_mask(APART), &late), "state 1 is never met");
}

#[test]
fn a_failure_names_its_rule() {
    let (p3, p9) = (p3(), p9());
    let wrong = swapped(&built(&p9), 1, 2).to_bytes();
    let reason = certify_all(&[(&p3, built(&p3).to_bytes()), (&p9, wrong)]).unwrap_err();
    assert!(reason.starts_with("rule 2 15 3: 2.0.0.0 2.1.0.0 11.0.1.0: "), "{reason}");
    let summary = certify_all(&[(&p3, built(&p3).to_bytes())]).unwrap();
    assert_eq!(summary.rules(), 1);
}

/// One check alone.
fn alone(
    rule: &Rule,
    monitor: &Monitor,
    check: impl Fn(&mut Check, &Telling) -> Result<(), String>,
) -> Result<(), String> {
    let bounds = Bounds::of(rule);
    let access = access_lists(monitor).unwrap();
    let telling = Telling::of(monitor).unwrap();
    let mut all = Check { monitor, access: &access, search: Search::new(rule, bounds), bounds };
    check(&mut all, &telling)
}

/// The table of two nexts decides too late for one next, and that of one too
/// early for two.
#[test]
fn each_check_alone_refuses() {
    let verdicts = |check: &mut Check, _: &Telling| check.verdicts();
    let undecided = |check: &mut Check, _: &Telling| check.undecided_states();
    let apart = |check: &mut Check, telling: &Telling| check.states_are_told_apart(telling);
    let successors = |check: &mut Check, telling: &Telling| check.successors(telling);
    let (early, late) = (built(&nexts(1)), built(&nexts(2)));
    for check in [verdicts, undecided] {
        assert!(alone(&nexts(1), &early, check).is_ok());
        assert!(alone(&nexts(2), &early, check).is_err());
    }
    for check in [apart, successors] {
        assert!(alone(&nexts(1), &early, check).is_ok());
        assert!(alone(&nexts(1), &late, check).is_err());
        assert!(alone(&nexts(2), &early, check).is_err());
    }
}

#[test]
fn lists_come_in_ascending_order() {
    assert_eq!(lists_over(&[0, 1], 2), [[0, 0], [0, 1], [1, 0], [1, 1]]);
    assert_eq!(lists_over(&[1, 2], 2), [[1, 1], [1, 2], [2, 1], [2, 2]]);
    assert_eq!(lists_over(&[0, 1, 2, 3], 3).len(), 64);
}
