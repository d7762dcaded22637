use super::*;
use crate::random_recordings::recording;
use crate::rng::Rng;
use crate::vectors::table_samples::{chain, leaving, masked, random_events, random_small_monitor};
use crate::vectors::table_samples::{document_monitors, p12, p12_apart, p3, random_monitor};

use Verdict::{Moot, Satisfied, Undecided, Violated};

type Judged = Result<Verdict, Refusal>;

fn opened_of(monitor: &Monitor) -> u64 {
    opened(monitor.signals, 700, monitor.states.len())
}

fn judged(monitor: &Monitor, first: &[u8], second: &[u8]) -> Judged {
    judge((&monitor.to_bytes(), opened_of(monitor)), first, second)
}

fn refused<T>(number: u8, place: usize) -> Result<T, Refusal> {
    Err(Refusal::new(number, place))
}

/// p until q.
fn p9() -> Monitor {
    document_monitors().remove(6)
}

/// Violated without q at the first event, otherwise moot.
fn p13() -> Monitor {
    document_monitors().remove(9)
}

/// The table of P12 with bytes changed since it was opened. A row has 13 bytes, the first
/// begins at 7; its verdict is the fifth, and its successors begin with the sixth.
fn changed_p12(changes: &[(usize, u8)], first: &[u8], second: &[u8]) -> Judged {
    let mut bytes = p12().to_bytes();
    changes.iter().for_each(|&(place, byte)| bytes[place] = byte);
    judge((&bytes, opened(2, 700, 3)), first, second)
}

/// The controller knows of each event whether a dose came.
const DOSES: [u8; 6] = [1, 1, 1, 0, 1, 1];
/// The valve block knows of each event whether it acknowledged: never, or at the second.
const SILENCE: [u8; 6] = [2, 0, 2, 0, 2, 0];
const ACKNOWLEDGED: [u8; 6] = [2, 0, 2, 2, 2, 0];
/// Nothing is known of three events.
const NOTHING: [u8; 6] = [0; 6];

#[test]
fn the_second_dose_is_told_by_both_together_and_by_neither_alone() {
    // Joined these are the events 1 0 1 and 1 2 1.
    assert_eq!(judged(&p12(), &DOSES, &SILENCE), Ok(Violated));
    assert_eq!(judged(&p12(), &DOSES, &ACKNOWLEDGED), Ok(Undecided));
    // Alone: by 1 0 1 violated, by 1 2 1 not; without a dose never.
    assert_eq!(judged(&p12(), &DOSES, &NOTHING), Ok(Undecided));
    assert_eq!(judged(&p12(), &NOTHING, &SILENCE), Ok(Undecided));
    assert_eq!(judged(&p12(), &NOTHING, &NOTHING), Ok(Undecided));
    // Whether the valve was silent at the first event does not matter: 3 leads where 1 does.
    assert_eq!(judged(&p12(), &DOSES, &[0, 0, 2, 0, 2, 0]), Ok(Violated));
    // That the last dose came without an acknowledgement does: with 3 it would stay in state 1.
    assert_eq!(judged(&p12(), &DOSES, &[2, 0, 2, 0, 0, 0]), Ok(Undecided));
}

#[test]
fn until_is_decided_where_every_completion_is() {
    let judged = |first: &[u8], second: &[u8]| judged(&p9(), first, second);
    // q, whatever p: events 2 and 3.
    assert_eq!(judged(&[2, 2], &[0, 0]), Ok(Satisfied));
    // Neither p nor q.
    assert_eq!(judged(&[2, 0], &[1, 0]), Ok(Violated));
    // No q: event 0 violates, event 1 leaves it open.
    assert_eq!(judged(&[2, 0], &[0, 0]), Ok(Undecided));
    // No p: event 0 violates, event 2 satisfies.
    assert_eq!(judged(&[0, 0], &[1, 0]), Ok(Undecided));
    // p, and then q whatever p: event 1 leaves it open, event 3 satisfies, and so does the second.
    assert_eq!(judged(&[1, 1, 2, 2], &[0, 0, 0, 0]), Ok(Satisfied));
    // After a gap everything may have happened before.
    assert_eq!(judged(&[0, 0, 2, 2], &[0, 0, 0, 0]), Ok(Undecided));
}

#[test]
fn moot_is_answered_as_the_others_are() {
    assert_eq!(judged(&p13(), &[2, 2], &[0, 0]), Ok(Moot));
    assert_eq!(judged(&p13(), &[0, 0, 0, 0], &[2, 2, 0, 0]), Ok(Moot));
    assert_eq!(judged(&p13(), &[2, 0], &[0, 0]), Ok(Violated));
    assert_eq!(judged(&p13(), &[1, 1], &[0, 0]), Ok(Undecided));
}

#[test]
fn a_mask_takes_completions_away() {
    // Two doses: without an acknowledgement violated, with one at the second not. Together with a
    // dose there is none where p and q never come together.
    assert_eq!(judged(&p12(), &[1, 1, 1, 1], &[0; 4]), Ok(Undecided));
    assert_eq!(judged(&p12_apart(), &[1, 1, 1, 1], &[0; 4]), Ok(Violated));
    // One event alone is left: nothing is known, and all is.
    let only_silence = leaving(p9(), 1);
    assert_eq!(judged(&only_silence, &[0, 0], &[0, 0]), Ok(Violated));
    assert_eq!(judged(&only_silence, &[0, 0], &[2, 2]), refused(12, 0));
    // Without event 0, "no q" is "p", and leaves it open.
    assert_eq!(judged(&leaving(p9(), 0b1110), &[2, 0], &[0, 0]), Ok(Undecided));
    assert_eq!(judged(&leaving(p9(), 0b1101), &[2, 0], &[0, 0]), Ok(Violated));
}

#[test]
fn no_events_show_the_start() {
    let starts = [Satisfied, Violated, Undecided, Undecided, Undecided, Moot];
    for (monitor, start) in document_monitors().iter().zip(starts) {
        assert_eq!(judged(monitor, &[], &[]), Ok(start));
    }
}

#[test]
fn a_table_that_was_not_built_is_judged_by_its_verdict_bytes() {
    // Satisfied, violated, satisfied, ..: one state after the other, whatever the event.
    let mut monitor = chain(1, 2, Violated);
    monitor.states[0].verdict = Satisfied;
    monitor.states[0].successors = vec![1, 1];
    monitor.states[1].successors = vec![0, 0];
    for (count, verdict) in [(0, Satisfied), (1, Violated), (2, Satisfied), (51, Violated)] {
        let gaps = vec![0; 2 * count];
        assert_eq!(judged(&monitor, &gaps, &gaps), Ok(verdict));
    }
}

#[test]
fn recordings_have_as_many_bytes_and_an_even_number() {
    for (first, second) in [(0, 1), (1, 1), (0, 2), (3, 3), (2, 4), (4, 6), (5, 6), (258, 2)] {
        let recordings = [vec![0; first], vec![0; second]];
        assert_eq!(judged(&p3(), &recordings[0], &recordings[1]), refused(22, 0));
        assert_eq!(judged(&p3(), &recordings[1], &recordings[0]), refused(22, 0));
    }
    assert!(judged(&p3(), &[0; 2], &[0; 2]).is_ok());
}

#[test]
fn every_bit_at_or_above_the_signals_is_refused_in_all_four_bytes() {
    let mut rng = Rng::new(71);
    for signals in 1..=4 {
        let monitor = random_monitor(&mut rng, signals, 3, 50);
        for (byte, bit) in (0..4).flat_map(|byte| (0..8).map(move |bit| (byte, bit))) {
            // Known where a value is to stand, so that below the signals nothing is wrong.
            let mut events = [[0, 0], [0, 0]];
            events[byte / 2][byte % 2] = 1 << bit;
            if byte % 2 == 1 && bit < signals {
                events[byte / 2][0] = 1 << bit;
            }
            let at = |place: usize| {
                let recordings = events.map(|event| {
                    let mut recording = [0; 6];
                    recording[2 * place..2 * place + 2].copy_from_slice(&event);
                    recording
                });
                judged(&monitor, &recordings[0], &recordings[1]).err()
            };
            for place in 0..3 {
                let expected = (bit >= signals).then_some(Refusal::new(12, place));
                assert_eq!(at(place), expected, "{signals} signals, byte {byte}, bit {bit}");
            }
        }
    }
}

#[test]
fn a_value_of_what_is_unknown_is_refused_also_where_the_other_knows() {
    assert_eq!(judged(&p12(), &[0, 1], &[0, 0]), refused(12, 0));
    assert_eq!(judged(&p12(), &[0, 0], &[1, 3]), refused(12, 0));
    assert_eq!(judged(&p12(), &[0, 1], &[1, 1]), refused(12, 0));
    assert_eq!(judged(&p12(), &[0, 0, 3, 3], &[0, 0, 1, 2]), refused(12, 1));
}

#[test]
fn what_both_know_is_the_same() {
    assert_eq!(judged(&p12(), &[1, 1], &[1, 0]), refused(23, 0));
    assert_eq!(judged(&p12(), &[3, 2, 3, 2], &[3, 2, 2, 0]), refused(23, 1));
    assert_eq!(judged(&p12(), &[3, 2, 3, 2], &[3, 2, 2, 2]), Ok(Undecided));
    assert_eq!(judged(&p12(), &[1, 1], &[2, 0]), Ok(Undecided));
}

#[test]
fn a_joined_event_has_to_be_possible() {
    // Each can happen for itself, a dose and an acknowledgement; both together cannot.
    assert_eq!(judged(&p12_apart(), &[1, 1], &[0, 0]), Ok(Undecided));
    assert_eq!(judged(&p12_apart(), &[0, 0], &[2, 2]), Ok(Undecided));
    assert_eq!(judged(&p12_apart(), &[1, 1], &[2, 2]), refused(12, 0));
    assert_eq!(judged(&p12_apart(), &[1, 1, 3, 3], &[2, 0, 0, 0]), refused(12, 1));
    // Of four signals nothing but 0101 and 1010, so no two neighbours are on.
    let monitor = leaving(chain(4, 5, Violated), 1 << 5 | 1 << 10);
    assert_eq!(judged(&monitor, &[1, 1], &[0, 0]), Ok(Undecided));
    assert_eq!(judged(&monitor, &[1, 1], &[2, 2]), refused(12, 0));
    assert_eq!(judged(&monitor, &[1, 1], &[8, 0]), Ok(Undecided));
    assert_eq!(judged(&monitor, &[0; 8], &[0; 8]), Ok(Violated));
}

#[test]
fn the_order_of_neighbouring_refusals() {
    let apart = p12_apart();
    // 14 before 22; 22 before the events'.
    assert_eq!(judge((&apart.to_bytes(), opened(2, 700, 4)), &[4], &[]), refused(14, 0));
    assert_eq!(judge((&apart.to_bytes()[1..], opened(2, 700, 3)), &[4], &[]), refused(14, 0));
    assert_eq!(judged(&apart, &[4, 0, 1], &[1, 0, 1]), refused(22, 0));
    assert_eq!(judged(&apart, &[1, 1, 0, 0], &[1, 0]), refused(22, 0));
    // 12 for a recording before 23, in one event; 23 before 12 for what is joined: 1 and 2 make 3.
    assert_eq!(judged(&apart, &[5, 1], &[1, 0]), refused(12, 0));
    assert_eq!(judged(&apart, &[1, 1], &[1, 2]), refused(12, 0));
    assert_eq!(judged(&apart, &[1, 1], &[3, 2]), refused(23, 0));
    // All of one event before those of the next.
    assert_eq!(judged(&apart, &[1, 1, 4, 0], &[1, 0, 0, 0]), refused(23, 0));
    assert_eq!(judged(&apart, &[1, 1, 1, 1], &[2, 2, 1, 0]), refused(12, 0));
    assert_eq!(judged(&apart, &[1, 1, 1, 1], &[2, 2, 0, 4]), refused(12, 0));
    assert_eq!(judged(&apart, &[1, 1, 1, 1], &[2, 0, 1, 0]), refused(23, 1));
    assert_eq!(judged(&apart, &[4, 4, 1, 1], &[0, 0, 1, 0]), refused(12, 0));
}

#[test]
fn a_way_that_leaves_the_table_is_refused_last() {
    let (row_1, row_2) = (20, 33);
    // The verdict of the start, of a state on the way, of the last.
    assert_eq!(changed_p12(&[(11, 4)], &[], &[]), refused(14, 0));
    assert_eq!(changed_p12(&[(11, 4)], &[3, 0], &[3, 0]), refused(14, 0));
    assert_eq!(changed_p12(&[(row_1 + 4, 9)], &DOSES, &SILENCE), refused(14, 0));
    assert_eq!(changed_p12(&[(row_2 + 4, 255)], &DOSES, &SILENCE), refused(14, 0));
    // No completion comes to state 2, or only one of them does.
    assert_eq!(changed_p12(&[(row_2 + 4, 4)], &DOSES, &ACKNOWLEDGED), Ok(Undecided));
    assert_eq!(changed_p12(&[(row_2 + 4, 4)], &DOSES, &NOTHING), refused(14, 0));
    // A successor past the states, or missing; where it is not read it does not matter.
    for bad in [[3, 0], [0, 1], [255, 255]] {
        let changes = [(row_1 + 5, bad[0]), (row_1 + 6, bad[1])];
        assert_eq!(changed_p12(&changes, &DOSES, &SILENCE), refused(14, 0));
        assert_eq!(changed_p12(&changes, &DOSES, &NOTHING), refused(14, 0));
        assert_eq!(changed_p12(&changes, &DOSES, &ACKNOWLEDGED), Ok(Undecided));
        // A later event's refusal comes first.
        let (mut first, mut second) = (DOSES.to_vec(), SILENCE.to_vec());
        first.extend([1, 1]);
        second.extend([1, 0]);
        assert_eq!(changed_p12(&changes, &first, &second), refused(23, 3));
        assert_eq!(changed_p12(&changes, &first, &[&second[..7], &[4]].concat()), refused(12, 3));
        assert_eq!(changed_p12(&changes, &first, &SILENCE), refused(22, 0));
    }
}

#[test]
fn the_possible_events_are_read_from_the_first_row() {
    // Event 3 is missing in row 0 alone: it cannot happen.
    let missing = [(7 + 11, 255), (7 + 12, 255)];
    assert_eq!(changed_p12(&missing, &[1, 1, 1, 1], &[0; 4]), Ok(Violated));
    assert_eq!(changed_p12(&missing, &[3, 3], &[0; 2]), refused(12, 0));
    // None can.
    let all: Vec<(usize, u8)> = (12..20).map(|place| (place, 255)).collect();
    assert_eq!(changed_p12(&all, &[0; 4], &[0; 4]), refused(12, 0));
    assert_eq!(changed_p12(&all, &[], &[]), Ok(Undecided));
}

#[test]
fn completions_are_all_lists_of_choices() {
    let lists = |choices: &[Vec<u8>]| completions(choices).collect::<Vec<_>>();
    assert_eq!(lists(&[]), [Vec::<u8>::new()]);
    assert_eq!(
        lists(&[vec![1, 3], vec![0], vec![0, 2]]),
        [[1, 0, 0], [1, 0, 2], [3, 0, 0], [3, 0, 2]]
    );
    assert_eq!(completion_count(&vec![vec![0; 16]; 15]), 1 << 60);
    assert_eq!(completion_count(&vec![vec![0; 16]; 16]), usize::MAX);
}

/// A state with a verdict leads to itself, as in every built table.
fn keep_verdicts(monitor: &mut Monitor) {
    let decided = (0..).zip(&mut monitor.states).filter(|(_, state)| state.verdict != Undecided);
    decided.for_each(|(number, state)| state.successors.fill(number));
}

/// A table, the events that took place, and two recordings of them.
struct Drawn {
    monitor: Monitor,
    events: Vec<u8>,
    first: Vec<u8>,
    second: Vec<u8>,
}

impl Drawn {
    /// Few enough completions that all are written out, or more.
    fn new(rng: &mut Rng) -> Self {
        let mut monitor = random_small_monitor(rng, 8);
        if rng.chance(50) {
            keep_verdicts(&mut monitor);
        }
        if rng.chance(50) {
            monitor = masked(rng, monitor);
        }
        let count = rng.between(0, 8);
        let events = random_events(rng, &monitor, count);
        let [first, second] = [(); 2].map(|()| {
            let known = *rng.pick(&[0, 0, 30, 50, 70, 100]);
            recording(rng, monitor.signals, &events, known)
        });
        Drawn { monitor, events, first, second }
    }

    fn judged(&self) -> Judged {
        judged(&self.monitor, &self.first, &self.second)
    }

    /// Asked of the table with what is possible at each event.
    fn with_choices<T>(&self, ask: impl FnOnce(&Counted, &[Vec<u8>]) -> T) -> T {
        let bytes = self.monitor.to_bytes();
        let table = Counted::new(&bytes, opened_of(&self.monitor)).unwrap();
        let choices = joined(&table, &self.first, &self.second).unwrap();
        ask(&table, &choices)
    }
}

fn drawn(seed: u64, count: usize) -> impl Iterator<Item = Drawn> {
    let mut rng = Rng::new(seed);
    (0..count).map(move |_| Drawn::new(&mut rng))
}

#[test]
fn lists_and_sets_agree() {
    let (mut compared, mut decided, mut above) = (0, 0, 0);
    for case in drawn(72, 4000) {
        case.with_choices(|table, choices| {
            let shown = by_sets(table, choices);
            assert_eq!(case.judged().ok(), shown);
            if !are_listed(choices) {
                above += 1;
                return;
            }
            assert_eq!(by_lists(table, Some(&case.monitor), choices), shown);
            assert_eq!(by_lists(table, None, choices), shown);
            compared += usize::from(completion_count(choices) > 1);
            decided += usize::from(shown != Some(Undecided) && completion_count(choices) > 1);
        });
    }
    assert!(compared > 1000 && decided > 300 && above > 100, "{compared} {decided} {above}");
}

#[test]
fn lists_and_sets_agree_over_bytes_that_are_no_table_any_more() {
    let mut rng = Rng::new(73);
    let (mut left, mut stayed) = (0, 0);
    for case in drawn(74, 3000) {
        let mut bytes = case.monitor.to_bytes();
        for _ in 0..rng.between(1, 3) {
            let place = rng.between(7, bytes.len() - 1);
            bytes[place] = *rng.pick(&[0, 3, 4, 8, 255]);
        }
        let table = Counted::new(&bytes, opened_of(&case.monitor)).unwrap();
        let Ok(choices) = joined(&table, &case.first, &case.second) else {
            continue;
        };
        let shown = by_sets(&table, &choices);
        if are_listed(&choices) {
            assert_eq!(by_lists(&table, None, &choices), shown);
        }
        left += usize::from(shown.is_none());
        stayed += usize::from(shown.is_some());
    }
    assert!(left > 300 && stayed > 300, "{left} {stayed}");
}

#[test]
fn it_does_not_matter_which_recording_is_the_first() {
    let mut rng = Rng::new(75);
    let mut kinds = BTreeSet::new();
    for mut case in drawn(76, 3000) {
        for recording in [&mut case.first, &mut case.second] {
            if !recording.is_empty() && rng.chance(30) {
                let place = rng.below(recording.len());
                recording[place] ^= 1 << rng.below(8);
            }
            if rng.chance(3) {
                recording.push(0);
            }
        }
        let other = judged(&case.monitor, &case.second, &case.first);
        assert_eq!(case.judged(), other);
        kinds.insert(other.map_or_else(|refusal| refusal.number, Verdict::to_byte));
    }
    assert_eq!(kinds, BTreeSet::from([0, 1, 2, 3, 12, 22, 23]));
}

#[test]
fn with_nothing_unknown_it_is_a_run() {
    for case in drawn(77, 1000) {
        let all = recording(&mut Rng::new(1), case.monitor.signals, &case.events, 100);
        let run = case.monitor.run(0, &case.events).map(|end| end.verdict);
        assert_eq!(judged(&case.monitor, &all, &case.second), run);
        assert_eq!(judged(&case.monitor, &case.first, &all), run);
    }
}

#[test]
fn a_decided_verdict_is_that_of_what_took_place_and_more_knowledge_keeps_it() {
    let mut rng = Rng::new(78);
    let (mut kept, mut won) = (0, 0);
    for case in drawn(79, 3000) {
        let before = case.judged().unwrap();
        // Whatever else of what took place becomes known, to the one or the other.
        let more = recording(&mut rng, case.monitor.signals, &case.events, 40);
        let more_known = |recording: &[u8]| -> Vec<u8> {
            recording.iter().zip(&more).map(|(byte, more)| byte | more).collect()
        };
        let [first, second] = [&case.first, &case.second].map(|recording| more_known(recording));
        for (first, second) in [(&first, &case.second), (&case.first, &second), (&first, &second)] {
            let after = judged(&case.monitor, first, second).unwrap();
            if before != Undecided {
                assert_eq!(after, before);
                kept += 1;
            }
            won += usize::from(before == Undecided && after != Undecided);
        }
        if before != Undecided {
            assert_eq!(case.monitor.run(0, &case.events).unwrap().verdict, before);
        }
    }
    assert!(kept > 1000 && won > 100, "{kept} {won}");
}

/// A program that judges recordings over a table that is good and recordings that are not refused
/// by 22, as other programs might.
type Program = fn(&Monitor, &[u8], &[u8]) -> Judged;

/// The right one but for what each event's bytes are taken for.
fn with_events(monitor: &Monitor, pairs: impl Iterator<Item = [Seen; 2]>) -> Judged {
    let recordings: [Vec<u8>; 2] = pairs.fold([vec![], vec![]], |mut recordings, seen| {
        for (recording, Seen { known, values }) in recordings.iter_mut().zip(seen) {
            recording.extend([known, values]);
        }
        recordings
    });
    judged(monitor, &recordings[0], &recordings[1])
}

/// Each unknown signal is off.
fn unknown_is_off(monitor: &Monitor, first: &[u8], second: &[u8]) -> Judged {
    judged(monitor, first, second)?;
    let all = (1 << monitor.signals) - 1;
    let filled = events(first)
        .zip(events(second))
        .map(|(first, second)| [Seen { known: all, values: first.values | second.values }; 2]);
    with_events(monitor, filled)
}

/// Where both know a signal, the first is right.
fn first_wins(monitor: &Monitor, first: &[u8], second: &[u8]) -> Judged {
    let won = events(first).zip(events(second)).map(|(first, second)| {
        let known = second.known & !first.known;
        [first, Seen { known, values: second.values & known }]
    });
    with_events(monitor, won)
}

/// The verdict of most completions.
fn majority(monitor: &Monitor, first: &[u8], second: &[u8]) -> Judged {
    judged(monitor, first, second)?;
    let bytes = monitor.to_bytes();
    let table = Counted::new(&bytes, opened_of(monitor)).unwrap();
    let choices = joined(&table, first, second)?;
    let mut votes = [0; 4];
    for list in completions(&choices) {
        votes[usize::from(ended(&table, &list).unwrap().to_byte())] += 1;
    }
    let won = (0..4).max_by_key(|&verdict| votes[verdict]).unwrap();
    Ok(Verdict::from_byte(won as u8).unwrap())
}

/// Looks at each recording by itself, and not whether what is joined can happen; where nothing
/// can, there is no completion that says otherwise.
fn joined_check_forgotten(monitor: &Monitor, first: &[u8], second: &[u8]) -> Judged {
    match judged(monitor, first, second) {
        Err(Refusal { number: 12, place }) => {
            let bytes = monitor.to_bytes();
            let table = Counted::new(&bytes, opened_of(monitor)).unwrap();
            let [first, second] = [first, second].map(|all| events(all).nth(place).unwrap());
            match faults(&table, first, second).first() {
                Some(Fault::NoCompletion) => Ok(Satisfied),
                _ => refused(12, place),
            }
        }
        other => other,
    }
}

/// A set that forgets the states from which nothing changes any more.
fn ends_forgotten(monitor: &Monitor, first: &[u8], second: &[u8]) -> Judged {
    judged(monitor, first, second)?;
    let bytes = monitor.to_bytes();
    let table = Counted::new(&bytes, opened_of(monitor)).unwrap();
    let choices = joined(&table, first, second)?;
    let changes = |state: u16| {
        mask::events(table.possible).any(|e| table.step(state, e).unwrap().end_state != state)
    };
    let mut set = BTreeSet::from([0]);
    for choices in &choices {
        let steps = set.iter().filter(|&&state| changes(state) || set.len() == 1);
        let steps = steps.flat_map(|&state| choices.iter().map(move |&event| (state, event)));
        set = steps.map(|(state, event)| table.step(state, event).unwrap().end_state).collect();
    }
    let verdicts: BTreeSet<u8> =
        set.into_iter().map(|state| table.verdict(state).unwrap().to_byte()).collect();
    let only = verdicts.iter().next().filter(|_| verdicts.len() == 1);
    Ok(only.map_or(Undecided, |&verdict| Verdict::from_byte(verdict).unwrap()))
}

/// What is right, and what the program says.
fn beside(program: Program, monitor: &Monitor, first: &[u8], second: &[u8]) -> [Judged; 2] {
    [judged(monitor, first, second), program(monitor, first, second)]
}

#[test]
fn other_programs_answer_otherwise() {
    let (right, p9) = (Ok(Undecided), p9());
    assert_eq!(beside(unknown_is_off, &p12(), &DOSES, &NOTHING), [right, Ok(Violated)]);
    assert_eq!(beside(unknown_is_off, &p9, &[0, 0], &[0, 0]), [right, Ok(Violated)]);
    assert_eq!(beside(first_wins, &p9, &[2, 2], &[3, 1]), [refused(23, 0), Ok(Satisfied)]);
    // Of p and q, q alone, p alone and neither, the first two satisfy.
    assert_eq!(beside(majority, &p9, &[0, 0], &[0, 0]), [right, Ok(Satisfied)]);
    let forgotten = beside(joined_check_forgotten, &p12_apart(), &[1, 1], &[2, 2]);
    assert_eq!(forgotten, [refused(12, 0), Ok(Satisfied)]);
    // The first event may satisfy or violate; if it does neither, the second violates.
    assert_eq!(beside(ends_forgotten, &p9, &[0, 0, 3, 0], &[0; 4]), [right, Ok(Violated)]);
}

#[test]
fn drawn_cases_tell_other_programs_apart() {
    let programs: [Program; 3] = [unknown_is_off, majority, ends_forgotten];
    let is_small = |case: &Drawn| case.with_choices(|_, choices| are_listed(choices));
    let cases: Vec<Drawn> = drawn(80, 4000).filter(is_small).collect();
    let told = programs.map(|program| {
        let is_told =
            |case: &&Drawn| case.judged() != program(&case.monitor, &case.first, &case.second);
        cases.iter().filter(is_told).count()
    });
    assert!(told[0] > 300 && told[1] > 100 && told[2] > 2, "{told:?}");
}

/// No state is taken, so an opening's number does not matter.
#[test]
fn whatever_the_number_is_the_answer_is_the_same() {
    let table = p12().to_bytes();
    for number in [0, 1, 255, 256, 65535] {
        let judge = |first: &[u8], second| judge((&table, opened(2, number, 3)), first, second);
        assert_eq!(judge(&DOSES, &SILENCE), Ok(Violated));
        assert_eq!(judge(&DOSES, &ACKNOWLEDGED), Ok(Undecided));
        assert_eq!(judge(&DOSES, &SILENCE[..4]), refused(22, 0));
    }
}
