use super::*;
use crate::builder;
use crate::counted::opened;
use crate::rng::Rng;
use crate::vectors::rule_samples::{document_rules, random_short_rule};
use crate::vectors::table_samples::{
    masked, p12, p12_apart, p3, random_events, random_small_monitor,
};

use Verdict::{Satisfied, Undecided, Violated};

/// Two bytes that differ.
const NUMBER: u16 = 0x0a0b;

fn state(opening: u16, number: u16) -> State {
    State { opening, number }
}

/// P12 where p and q never come together, three states, opened with `NUMBER`.
fn ran(from: State, events: &[u8]) -> Result<Arrived, Refusal> {
    run((&p12_apart().to_bytes(), opened(2, NUMBER, 3)), from, events)
}

fn refused<T>(number: u8, place: usize) -> Result<T, Refusal> {
    Err(Refusal::new(number, place))
}

fn arrived(number: u16, verdict: Verdict, count: Option<usize>) -> Result<Arrived, Refusal> {
    Ok(Arrived { state: state(NUMBER, number), verdict, count })
}

/// Numbers that differ from `NUMBER` in a bit, in a byte, and by one; and the ends.
fn others() -> impl Iterator<Item = u16> {
    let near = [NUMBER - 1, NUMBER + 1, NUMBER ^ 0xff, NUMBER ^ 0xff00, 0x0b0a, 0, 65535];
    (0..16).map(|bit| NUMBER ^ 1 << bit).chain(near)
}

#[test]
fn a_start_is_state_0_with_the_number() {
    for number in others() {
        assert_eq!(start(opened(2, number, 3)), state(number, 0));
        assert_eq!(start(opened(4, number, 256)), state(number, 0));
    }
    assert_eq!(start(14 << 56), state(0, 0));
    assert_eq!(start(u64::MAX), state(65535, 0));
}

#[test]
fn states_carry_the_number() {
    let begin = start(opened(2, NUMBER, 3));
    assert_eq!(ran(begin, &[]), arrived(0, Undecided, None));
    assert_eq!(ran(begin, &[1, 0, 1]), arrived(2, Violated, Some(3)));
    assert_eq!(ran(begin, &[1, 2, 1]), arrived(1, Undecided, None));
    assert_eq!(ran(state(NUMBER, 1), &[1]), arrived(2, Violated, Some(1)));
    assert_eq!(ran(state(NUMBER, 2), &[]), arrived(2, Violated, Some(0)));
}

#[test]
fn every_other_number_is_refused_whatever_the_list_is() {
    for other in others() {
        for events in [&[][..], &[1], &[1, 0, 1], &[3], &[0, 4]] {
            for number in [0, 1, 2, 3, NUMBER, 65535] {
                assert_eq!(ran(state(other, number), events), refused(24, 0));
            }
        }
    }
}

/// 14, 24, 13, 12: each of them, and with all that come later.
#[test]
fn the_first_that_applies_refuses() {
    let bytes = p12_apart().to_bytes();
    for given in [0, opened(2, NUMBER, 2), opened(5, NUMBER, 3), 14 << 56, u64::MAX] {
        assert_eq!(run((&bytes, given), state(NUMBER + 1, 3), &[9]), refused(14, 0));
        assert_eq!(run((&bytes, given), state(NUMBER, 0), &[]), refused(14, 0));
    }
    let cut = &bytes[..bytes.len() - 1];
    assert_eq!(run((cut, opened(2, NUMBER, 3)), state(0, 3), &[9]), refused(14, 0));
    assert_eq!(ran(state(NUMBER + 1, 3), &[0, 9]), refused(24, 0));
    assert_eq!(ran(state(NUMBER + 1, 3), &[]), refused(24, 0));
    assert_eq!(ran(state(NUMBER + 1, 0), &[0, 9]), refused(24, 0));
    assert_eq!(ran(state(NUMBER, 3), &[0, 9]), refused(13, 0));
    assert_eq!(ran(state(NUMBER, 65535), &[]), refused(13, 0));
    assert_eq!(ran(state(NUMBER, 2), &[0, 9]), refused(12, 1));
    assert_eq!(ran(state(NUMBER, 0), &[0, 0, 3, 9]), refused(12, 2));
}

/// P12's bytes changed after it was opened: a row has 13, that of state 1 begins at 20.
#[test]
fn the_last_14_comes_behind_24_and_13_and_12() {
    let with = |changes: &[(usize, u8)], from: State, events: &[u8]| {
        let mut bytes = p12().to_bytes();
        changes.iter().for_each(|&(place, byte)| bytes[place] = byte);
        run((&bytes, opened(2, NUMBER, 3)), from, events)
    };
    let (verdict, successor) = (20 + 4, 20 + 5);
    let (zero, one) = (state(NUMBER, 0), state(NUMBER, 1));
    for changes in [[(verdict, 4), (verdict, 4)], [(verdict, 255), (verdict, 9)]] {
        assert_eq!(with(&changes, one, &[]), refused(14, 0));
        assert_eq!(with(&changes, one, &[2]), refused(14, 0));
        assert_eq!(with(&changes, zero, &[1, 2]), refused(14, 0));
        assert_eq!(with(&changes, zero, &[0, 2]), arrived(0, Undecided, None));
        assert_eq!(with(&changes, one, &[2, 4]), refused(12, 1));
        assert_eq!(with(&changes, state(NUMBER, 3), &[4]), refused(13, 0));
        assert_eq!(with(&changes, state(NUMBER ^ 1, 1), &[4]), refused(24, 0));
    }
    for missing in [[(successor, 3), (successor, 3)], [(successor, 255), (successor + 1, 255)]] {
        assert_eq!(with(&missing, one, &[0]), refused(14, 0));
        assert_eq!(with(&missing, zero, &[0, 1, 0]), refused(14, 0));
        assert_eq!(with(&missing, one, &[2]), arrived(0, Undecided, None));
        assert_eq!(with(&missing, zero, &[1, 1, 0]), arrived(2, Violated, Some(2)));
        assert_eq!(with(&missing, state(0, 1), &[0]), refused(24, 0));
    }
}

/// Over good tables the two ways of running are one.
#[test]
fn a_walk_over_a_good_table_is_its_run() {
    let mut rng = Rng::new(91);
    let mut refused = 0;
    for _ in 0..300 {
        let monitor = random_small_monitor(&mut rng, 9);
        let monitor = masked(&mut rng, monitor);
        let bytes = monitor.to_bytes();
        let given = opened(monitor.signals, NUMBER, monitor.states.len());
        let table = Counted::new(&bytes, given).unwrap();
        for _ in 0..10 {
            let from = rng.below(monitor.states.len() + 1) as u16;
            let mut events = random_events(&mut rng, &monitor, 8);
            if rng.chance(20) {
                events[rng.below(8)] = rng.byte_below(20);
            }
            let expected = monitor.run(from, &events);
            assert_eq!(walk(&table, from, &events), expected);
            refused += u32::from(expected.is_err());
        }
    }
    assert!((200..1500).contains(&refused), "{refused}");
}

/// Two tables with one number: 13, 12 and the answer go by the table at hand.
#[test]
fn two_openings_with_one_number_are_not_told_apart() {
    let (small, large) = (p3().to_bytes(), p12().to_bytes());
    let small = (&small[..], opened(1, NUMBER, 3));
    let large = (&large[..], opened(2, NUMBER, 3));
    let dosed = run(large, start(large.1), &[1]).unwrap().state;
    assert_eq!(run(small, dosed, &[0]), arrived(1, Violated, Some(0)));
    assert_eq!(run(small, dosed, &[2]), refused(12, 0));
    let two_states = crate::vectors::table_samples::document_monitors()[3].to_bytes();
    let broken = run(large, dosed, &[1]).unwrap().state;
    assert_eq!(run((&two_states, opened(1, NUMBER, 2)), broken, &[0]), refused(13, 0));
    assert_eq!(run(small, broken, &[]), arrived(2, Satisfied, Some(0)));
}

/// Several openings of built tables, all numbers distinct, with states passed between them.
#[test]
fn the_law_holds_of_random_histories() {
    let mut rng = Rng::new(97);
    let mut built: Vec<Monitor> = Vec::new();
    let random: Vec<_> = (0..200).map(|_| random_short_rule(&mut rng, 9)).collect();
    for rule in document_rules().into_iter().chain(random) {
        let mut table = vec![0; 9479];
        if let Ok(length) = builder::build(&rule.to_bytes(), &mut table) {
            built.push(Monitor::open(&table[..length]).unwrap());
        }
    }
    let (mut own, mut foreign, mut wrong_events, mut decided) = (0, 0, 0, 0);
    for _ in 0..200 {
        let count = rng.between(2, 5);
        let mut numbers: Vec<u16> = others().chain([NUMBER]).collect();
        numbers.sort();
        numbers.dedup();
        let tables: Vec<(Monitor, u64)> = (0..count)
            .map(|_| {
                let number = numbers.swap_remove(rng.below(numbers.len()));
                let monitor = rng.pick(&built).clone();
                let given = opened(monitor.signals, number, monitor.states.len());
                (monitor, given)
            })
            .collect();
        let openings: Vec<(&Monitor, State)> =
            tables.iter().map(|(monitor, given)| (monitor, start(*given))).collect();
        let mut ledger = Ledger::new(&openings);
        for _ in 0..60 {
            let (by, from) = (rng.below(count), rng.below(ledger.held.len()));
            let (monitor, given) = &tables[by];
            let length = rng.below(4);
            let mut events = random_events(&mut rng, monitor, length);
            if rng.chance(5) {
                events.push(16);
            }
            let answer = run((&monitor.to_bytes(), *given), ledger.held[from].state, &events);
            assert_eq!(ledger.told(by, from, &events, answer), Ok(()));
            match answer {
                Ok(end) => {
                    own += 1;
                    decided += u32::from(end.verdict != Undecided);
                }
                Err(Refusal { number: 24, .. }) => foreign += 1,
                Err(_) => wrong_events += 1,
            }
        }
    }
    let met = [own, foreign, wrong_events, decided];
    assert!(met.iter().all(|&times| times > 100), "{met:?}");
}

/// Each law is told by an answer that breaks it.
#[test]
fn wrong_answers_are_told() {
    let (first, second) = (p12(), p3());
    let openings = [(&first, state(1, 0)), (&second, state(2, 0))];
    let told = |by, from, events: &[u8], answer| {
        let mut ledger = Ledger::new(&openings);
        let dosed = Arrived { state: state(1, 1), verdict: Undecided, count: None };
        ledger.told(0, 0, &[1], Ok(dosed)).unwrap();
        assert_eq!((ledger.held[2].of, &ledger.held[2].since[..]), (0, &[1][..]));
        ledger.told(by, from, events, answer)
    };
    let end = |verdict| Ok(Arrived { state: state(1, 2), verdict, count: None });
    assert_eq!(told(0, 2, &[0, 1], end(Violated)), Ok(()));
    assert_eq!(told(0, 2, &[0, 1], end(Undecided)), Err(NOT_THE_VERDICT));
    assert_eq!(told(0, 0, &[0, 1], end(Violated)), Err(NOT_THE_VERDICT));
    assert_eq!(told(0, 2, &[0, 1], refused(24, 0)), Err(REFUSED));
    assert_eq!(told(0, 2, &[0, 1], refused(13, 0)), Err(OTHER_REFUSAL));
    assert_eq!(told(0, 2, &[0, 1], refused(14, 0)), Err(OTHER_REFUSAL));
    assert_eq!(told(0, 2, &[0, 1], refused(12, 0)), Err(OTHER_REFUSAL));
    assert_eq!(told(0, 2, &[4], refused(12, 0)), Ok(()));
    assert_eq!(told(0, 2, &[4], end(Undecided)), Err(NOT_REFUSED_BY_12));
    assert_eq!(told(1, 2, &[0], refused(24, 0)), Ok(()));
    assert_eq!(told(1, 2, &[0], refused(24, 1)), Err(OTHER_PLACE));
    assert_eq!(told(1, 2, &[0], refused(13, 0)), Err(NOT_REFUSED));
    assert_eq!(told(1, 0, &[4], refused(12, 0)), Err(NOT_REFUSED));
    assert_eq!(told(0, 1, &[0], end(Undecided)), Err(NOT_REFUSED));
    assert_eq!(told(1, 1, &[0], end(Violated)), Ok(()));
}
