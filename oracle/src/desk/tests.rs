use super::*;
use crate::counted::opened;
use crate::rng::Rng;
use crate::table::Monitor;
use crate::vectors::table_samples::{document_monitors, p12, p12_apart};

use Verdict::{Moot, Satisfied, Undecided, Violated};

/// The number of every opening but where another is said, with two bytes that differ.
const NUMBER: u16 = 0x1203;

/// P12 opened; `Apart` where p and q never come together.
fn with_table<T>(is_apart: bool, call: impl FnOnce((&[u8], u64)) -> T) -> T {
    let monitor = if is_apart { p12_apart() } else { p12() };
    call((&monitor.to_bytes(), opened(2, NUMBER, 3)))
}

/// In state 0, undecided, with nothing waiting and nothing heard.
fn blank() -> Tunnel {
    Tunnel::fresh(NUMBER, Undecided)
}

fn tunnel(state: u16, queue: &[u8]) -> Tunnel {
    let mut tunnel = Tunnel { state, ..blank() };
    queue.iter().for_each(|&event| tunnel.push(event));
    tunnel
}

fn posted(desk: &mut [Tunnel], number: usize, event: u8) -> Result<(), Refusal> {
    with_table(true, |table| post(desk, table, number, event))
}

fn turned(desk: &mut [Tunnel], last: usize) -> Served {
    with_table(true, |table| turn(desk, table, last))
}

fn heard(number: usize, event: u8, state: u16, verdict: Verdict) -> Served {
    let state = State { opening: NUMBER, number: state };
    Ok(Some(Heard { number, event, state, verdict }))
}

fn refused<T>(number: u8, place: usize) -> Result<T, Refusal> {
    Err(Refusal::new(number, place))
}

/// What is remembered: filled, heard and first.
fn memory(tunnel: &Tunnel) -> (u16, u32, u32) {
    (tunnel.filled, tunnel.heard, tunnel.first)
}

fn remembering((filled, heard, first): (u16, u32, u32), tunnel: Tunnel) -> Tunnel {
    Tunnel { filled, heard, first, ..tunnel }
}

/// With so many events heard.
fn aged(heard: u32, tunnel: Tunnel) -> Tunnel {
    Tunnel { heard, ..tunnel }
}

#[test]
fn a_fresh_tunnel_has_state_0_with_nothing_waiting_and_nothing_heard() {
    for (start, filled) in [(Undecided, 0), (Satisfied, 1), (Violated, 1), (Moot, 1)] {
        let fresh = Tunnel::fresh(NUMBER, start);
        assert_eq!((fresh.state, fresh.waiting, fresh.queue().count()), (0, 0, 0));
        assert_eq!(fresh.stands(), State { opening: NUMBER, number: 0 });
        assert_eq!(memory(&fresh), (filled, 0, 0));
        assert_eq!(fresh.first_verdict(), (filled == 1).then_some(0));
        assert!(fresh.free().eq([0; 32]));
    }
}

#[test]
fn a_queue_is_the_first_slots_and_the_others_are_free() {
    let tunnel = Tunnel { waiting: 2, slots: (7..39).collect(), ..blank() };
    assert!(tunnel.queue().eq([7, 8]) && tunnel.free().eq(9..39));
    let over = Tunnel { waiting: 33, ..tunnel };
    assert!(over.queue().eq(7..39) && over.free().count() == 0);
}

#[test]
fn posts_stand_oldest_first_and_change_nothing_else() {
    let noise = Tunnel { slots: (100..132).collect(), ..remembering((7, 9, 11), blank()) };
    let mut desk = vec![noise; 3];
    assert_eq!(posted(&mut desk, 1, 2), Ok(()));
    assert_eq!(posted(&mut desk, 1, 1), Ok(()));
    assert!(desk[1].slots.iter().copied().eq([2, 1].into_iter().chain(102..132)));
    assert_eq!((desk[1].waiting, desk[1].state), (2, 0));
    assert!(desk.iter().all(|tunnel| memory(tunnel) == (7, 9, 11)));
    for other in [&desk[0], &desk[2]] {
        assert!(other.waiting == 0 && other.slots.iter().copied().eq(100..132));
    }
}

#[test]
fn hearing_takes_the_oldest_out_and_moves_the_state() {
    let slots: VecDeque<u8> = [1, 2].into_iter().chain(100..130).collect();
    let mut desk = [Tunnel { state: 1, waiting: 2, slots, ..blank() }, tunnel(0, &[])];
    assert_eq!(turned(&mut desk, 1), heard(0, 1, 2, Violated));
    assert_eq!((desk[0].state, desk[0].waiting), (2, 1));
    assert!(desk[0].slots.iter().copied().eq([2].into_iter().chain(100..130).chain([0])));
    assert_eq!(desk[1], blank());
}

#[test]
fn turns_go_round_and_end_at_the_given_tunnel() {
    let mut desk = [tunnel(0, &[1, 2]), tunnel(0, &[]), tunnel(1, &[0]), tunnel(0, &[])];
    assert_eq!(turned(&mut desk, 0), heard(2, 0, 1, Undecided));
    assert_eq!(turned(&mut desk, 2), heard(0, 1, 1, Undecided));
    assert_eq!(turned(&mut desk, 0), heard(0, 2, 0, Undecided));
    let before = desk.clone();
    assert_eq!(turned(&mut desk, 0), Ok(None));
    assert_eq!(desk, before);
    assert_eq!(turned(&mut [tunnel(0, &[1])], 0), heard(0, 1, 1, Undecided));
}

#[test]
fn a_number_outside_the_row_counts_as_the_last_tunnel() {
    for last in [2, 3, 64, usize::MAX] {
        let mut desk = [tunnel(0, &[]), tunnel(0, &[1]), tunnel(0, &[2])];
        assert_eq!(turned(&mut desk, last), heard(1, 1, 1, Undecided));
    }
}

#[test]
fn the_order_of_a_turn() {
    assert_eq!(order(4, 1), [2, 3, 0, 1]);
    assert_eq!(order(4, 3), [0, 1, 2, 3]);
    assert_eq!(order(4, 4), [0, 1, 2, 3]);
    assert_eq!(order(1, 0), [0]);
    assert_eq!(order(0, 0), []);
    for (row, last) in (1..=64).flat_map(|row| (0..row).map(move |last| (row, last))) {
        assert!(order(row, last).into_iter().eq((1..=row).map(|k| (last + k) % row)));
    }
}

#[test]
fn a_row_is_neither_empty_nor_above_64() {
    for (row, is_good) in [(0, false), (1, true), (64, true), (65, false), (200, false)] {
        let mut desk = vec![tunnel(2, &[1]); row];
        let before = desk.clone();
        let answers = [
            posted(&mut desk, 0, 0).err(),
            turned(&mut desk.clone(), 0).err(),
            with_table(true, |table| fresh(&mut desk.clone(), table)).err(),
        ];
        let expected = (!is_good).then_some(Refusal::new(18, 0));
        assert_eq!(answers, [expected; 3]);
        assert_eq!(desk == before, !is_good);
    }
}

#[test]
fn fresh_ignores_what_stood_there() {
    for (index, start) in [(0, Satisfied), (1, Violated), (2, Undecided), (5, Moot)] {
        let monitor = &document_monitors()[index];
        let table =
            (&monitor.to_bytes()[..], opened(monitor.signals, NUMBER, monitor.states.len()));
        let over = Tunnel { waiting: 65535, opening: 7, ..tunnel(1, &[0]) };
        let mut desk = [tunnel(65535, &[255]), remembering((9, u32::MAX, 9), over), blank()];
        assert_eq!(fresh(&mut desk, table), Ok(()));
        let expected = remembering((u16::from(start != Undecided), 0, 0), blank());
        assert_eq!(desk, [expected.clone(), expected.clone(), expected]);
    }
}

#[test]
fn fresh_refuses_the_table_before_the_row_and_changes_nothing() {
    let good = p12().to_bytes();
    let with = |place: usize, byte: u8| {
        let mut bytes = good.clone();
        bytes[place] = byte;
        bytes
    };
    // The verdicts of states 0 and 1 stand at 11 and 24.
    let right = opened(2, NUMBER, 3);
    let cases = [
        (good.clone(), 0, true),
        (good.clone(), right + 1, true),
        (good.clone(), right | 1 << 40, true),
        (good.clone(), right ^ 1 << 32, true),
        (good[1..].to_vec(), right, true),
        (with(11, 4), right, true),
        (with(11, 255), right, true),
        (with(24, 4), right, false),
        (with(12, 255), right, false),
        (with(0, 9), right, false),
    ];
    for (bytes, given, is_refused) in cases {
        for row in [0, 1, 64, 65] {
            let mut desk = vec![tunnel(2, &[1]); row];
            let before = desk.clone();
            let expected = match row {
                _ if is_refused => refused(14, 0),
                0 | 65 => refused(18, 0),
                _ => Ok(()),
            };
            assert_eq!(fresh(&mut desk, (&bytes, given)), expected);
            assert_eq!(desk == before, expected.is_err());
        }
    }
}

/// What one tunnel remembers after each event that it hears.
fn memories(monitor: &Monitor, mut tunnel: Tunnel, events: &[u8]) -> Vec<(u16, u32, u32)> {
    let table = (&monitor.to_bytes()[..], opened(monitor.signals, NUMBER, monitor.states.len()));
    let mut all = Vec::new();
    for &event in events {
        let desk = std::slice::from_mut(&mut tunnel);
        assert_eq!(post(desk, table, 0, event), Ok(()));
        assert!(turn(desk, table, 0).unwrap().is_some());
        all.push(memory(&tunnel));
    }
    all
}

#[test]
fn the_first_verdict_is_remembered_with_its_event_counted() {
    let broken_by_the_third = [(0, 1, 0), (0, 2, 0), (1, 3, 3), (1, 4, 3)];
    assert_eq!(memories(&p12(), blank(), &[1, 0, 1, 2]), broken_by_the_third);
    assert_eq!(memories(&p12(), blank(), &[1, 2, 1]), [(0, 1, 0), (0, 2, 0), (0, 3, 0)]);
    let later = [(0, 101, 0), (1, 102, 102), (1, 103, 102)];
    assert_eq!(memories(&p12(), aged(100, blank()), &[1, 1, 1]), later);
    let from_the_start = [(1, 1, 0), (1, 2, 0)];
    for (index, start) in [(0, Satisfied), (1, Violated), (5, Moot)] {
        let monitor = &document_monitors()[index];
        assert_eq!(memories(monitor, Tunnel::fresh(NUMBER, start), &[0, 1]), from_the_start);
    }
}

#[test]
fn a_verdict_that_passes_stays_remembered() {
    let mut passing = p12();
    passing.states[2].successors = vec![0; 4];
    let both = [(0, 1, 0), (1, 2, 2), (1, 3, 2), (1, 4, 2), (1, 5, 2)];
    assert_eq!(memories(&passing, blank(), &[1, 1, 0, 1, 1]), both);
}

#[test]
fn what_a_lent_watch_remembers_is_not_judged() {
    let kept = [(7, 6, 3), (7, 7, 3)];
    assert_eq!(memories(&p12(), remembering((7, 5, 3), blank()), &[1, 1]), kept);
    let larger = [(1 << 15, 6, 99), (1 << 15, 7, 99)];
    assert_eq!(memories(&p12(), remembering((1 << 15, 5, 99), blank()), &[1, 1]), larger);
    let unfilled = [(0, 6, 99), (1, 7, 7)];
    assert_eq!(memories(&p12(), remembering((0, 5, 99), blank()), &[1, 1]), unfilled);
    // Violated already, and not filled: the next event fills it.
    assert_eq!(memories(&p12(), aged(5, tunnel(2, &[])), &[0]), [(1, 6, 6)]);
}

/// All events of a tunnel, heard and waiting, are counted in four bytes.
#[test]
fn heard_and_waiting_are_4294967295_at_most() {
    let (most, full) = (u32::MAX, [2; 32]);
    let fitting = [
        aged(most, tunnel(2, &[])),
        aged(most - 1, tunnel(2, &[2])),
        aged(4_294_967_263, tunnel(2, &full)),
    ];
    for (number, by) in [(0, 21), (1, 21), (2, 20)] {
        let mut desk = fitting.clone();
        assert_eq!(posted(&mut desk, number, 2), refused(by, number));
        assert_eq!(posted(&mut desk, number, 3), refused(12, number));
        assert_eq!(desk, fitting);
    }
    let mut desk = fitting;
    assert_eq!(turned(&mut desk, 0), heard(1, 2, 2, Violated));
    assert_eq!(memory(&desk[1]), (1, most, most));
    assert_eq!(turned(&mut desk, 1), heard(2, 2, 2, Violated));
    assert_eq!(posted(&mut desk, 2, 2), refused(21, 2));
    assert_eq!(posted(&mut desk, 3, 2), refused(19, 3));
    let mut one_left = [aged(most - 1, blank())];
    assert_eq!(posted(&mut one_left, 0, 2), Ok(()));
    assert_eq!(posted(&mut one_left, 0, 2), refused(21, 0));
}

/// Each watch that is wrong, with all that is wrong with it.
fn wrong() -> Vec<(Tunnel, Vec<Fault>)> {
    let over = |waiting| Tunnel { waiting, ..blank() };
    let full = tunnel(0, &[0; 32]);
    vec![
        (tunnel(3, &[]), vec![Fault::StateTooLarge]),
        (tunnel(65535, &[]), vec![Fault::StateTooLarge]),
        (over(33), vec![Fault::OverTheLimit]),
        (over(65535), vec![Fault::OverTheLimit]),
        (tunnel(0, &[0, 4]), vec![Fault::NoEvent]),
        (tunnel(0, &[255]), vec![Fault::NoEvent]),
        (tunnel(0, &[3]), vec![Fault::ImpossibleEvent]),
        (tunnel(0, &[[0; 31].as_slice(), &[3]].concat()), vec![Fault::ImpossibleEvent]),
        (aged(u32::MAX, tunnel(0, &[0])), vec![Fault::TooManyEvents]),
        (aged(u32::MAX - 1, tunnel(0, &[0, 0])), vec![Fault::TooManyEvents]),
        (aged(4_294_967_264, full.clone()), vec![Fault::TooManyEvents]),
        (aged(u32::MAX, full), vec![Fault::TooManyEvents]),
        (aged(4_294_967_262, over(33)), vec![Fault::OverTheLimit]),
        (aged(u32::MAX, over(65535)), vec![Fault::OverTheLimit, Fault::TooManyEvents]),
        (aged(u32::MAX, tunnel(3, &[])), vec![Fault::StateTooLarge]),
        (tunnel(3, &[3, 16]), vec![Fault::StateTooLarge, Fault::NoEvent, Fault::ImpossibleEvent]),
    ]
}

#[test]
fn the_first_wrong_watch_is_named_and_nothing_changes() {
    let table = p12_apart().to_bytes();
    let table = Counted::new(&table, opened(2, NUMBER, 3)).unwrap();
    for (watch, faults) in wrong() {
        assert_eq!(watch.faults(&table), faults);
        for first in 0..4 {
            let mut desk = vec![tunnel(2, &[2]); 5];
            desk[first] = watch.clone();
            desk[4] = tunnel(9, &[9]);
            let before = desk.clone();
            assert_eq!(posted(&mut desk, 0, 0), refused(13, first));
            assert_eq!(turned(&mut desk, 0), refused(13, first));
            assert_eq!(desk, before);
        }
    }
}

#[test]
fn limits_and_free_slots_are_no_faults() {
    let mut free = tunnel(2, &[2]);
    free.slots.iter_mut().skip(1).for_each(|slot| *slot = 3);
    free.slots[31] = 255;
    let mut desk = [free, tunnel(2, &[2; 32])];
    assert_eq!(posted(&mut desk, 0, 2), Ok(()));
    assert_eq!(turned(&mut desk, 0), heard(1, 2, 2, Violated));
    let mut with_all_events = [tunnel(0, &[3])];
    let answer = with_table(false, |table| turn(&mut with_all_events, table, 0));
    assert_eq!(answer, heard(0, 3, 1, Undecided));
}

/// Posts to two tunnels with queues as said, the second one's state perhaps wrong.
fn answer(row_is_good: bool, watch_is_good: bool, number: usize, event: u8) -> Option<Refusal> {
    let row = if row_is_good { 2 } else { 65 };
    let mut desk = vec![tunnel(0, &[0; 32]); row];
    desk[1] = tunnel(if watch_is_good { 0 } else { 3 }, &[0; 31]);
    let before = desk.clone();
    let answer = posted(&mut desk, number, event).err();
    assert_eq!(answer.is_none(), desk != before);
    answer
}

#[test]
fn a_post_is_refused_by_the_first_that_applies() {
    let by = |number, place| Some(Refusal::new(number, place));
    assert_eq!(answer(false, false, 99, 3), by(18, 0));
    assert_eq!(answer(true, false, 99, 3), by(13, 1));
    assert_eq!(answer(true, false, 0, 0), by(13, 1));
    assert_eq!(answer(true, true, 2, 3), by(19, 2));
    assert_eq!(answer(true, true, usize::MAX, 0), by(19, usize::MAX));
    assert_eq!(answer(true, true, 0, 3), by(12, 0));
    assert_eq!(answer(true, true, 1, 4), by(12, 1));
    assert_eq!(answer(true, true, 0, 2), by(20, 0));
    assert_eq!(answer(true, true, 1, 2), None);
}

#[test]
fn the_refused_table_comes_before_all_else() {
    let table = p12().to_bytes();
    let mut desk = vec![tunnel(3, &[9]); 65];
    let before = desk.clone();
    let others = [opened(2, NUMBER, 2), opened(2, NUMBER, 4), opened(3, NUMBER, 3)];
    for given in others.into_iter().chain([0, u64::MAX, 24 << 56]) {
        assert_eq!(post(&mut desk, (&table, given), 99, 9), refused(14, 0));
        assert_eq!(turn(&mut desk, (&table, given), 99), refused(14, 0));
        assert_eq!(fresh(&mut desk, (&table, given)), refused(14, 0));
    }
    assert_eq!(desk, before);
}

#[test]
fn a_turn_that_leaves_the_table_is_refused_behind_the_watches() {
    let table = p12().to_bytes();
    // The successor of state 0 for event 1, the verdicts of states 0 and 1: rows have 13 bytes.
    for (place, byte) in [(7 + 7, 3), (7 + 4, 4), (20 + 4, 4)] {
        let mut spoilt = table.clone();
        spoilt[place] = byte;
        let spoilt = (&spoilt[..], opened(2, NUMBER, 3));
        let mut desk = vec![tunnel(0, &[1]), tunnel(2, &[1])];
        let before = desk.clone();
        assert_eq!(turn(&mut desk, spoilt, 1), refused(14, 0));
        assert_eq!(desk, before);
        assert_eq!(turn(&mut desk, spoilt, 0), heard(1, 1, 2, Violated));
        desk[1].state = 3;
        assert_eq!(turn(&mut desk, spoilt, 1), refused(13, 1));
    }
}

#[test]
fn of_an_emptied_first_row_no_event_can_happen() {
    let mut table = p12().to_bytes();
    table[12..20].fill(255);
    let table = (&table[..], opened(2, NUMBER, 3));
    let mut desk = [tunnel(0, &[])];
    assert_eq!(post(&mut desk, table, 0, 0), refused(12, 0));
    assert_eq!(turn(&mut desk, table, 0), Ok(None));
    assert_eq!(turn(&mut [tunnel(1, &[0])], table, 0), refused(13, 0));
}

/// The event, counted from 1, that is a second dose before an acknowledgement, which is P12's.
fn broken(events: &[u8]) -> Option<u32> {
    let mut is_dosed = false;
    for (count, event) in (1..).zip(events) {
        let (dose, acknowledged) = (event & 1 == 1, event & 2 == 2);
        if is_dosed && dose && !acknowledged {
            return Some(count);
        }
        is_dosed = dose || is_dosed && !acknowledged;
    }
    None
}

/// Against lists that are searched and shifted by hand, and a second list of what was heard.
#[test]
fn random_calls_do_what_plain_lists_do() {
    let mut rng = Rng::new(73);
    let table = p12().to_bytes();
    for _ in 0..200 {
        let row = rng.between(1, 64);
        let mut desk = vec![blank(); row];
        let mut lists: Vec<Vec<u8>> = vec![Vec::new(); row];
        let mut pasts = lists.clone();
        let mut last = rng.below(70);
        for _ in 0..100 {
            if rng.chance(60) {
                let (number, event) = (rng.below(row), rng.byte_below(4));
                let is_taken =
                    post(&mut desk, (&table, opened(2, NUMBER, 3)), number, event).is_ok();
                assert_eq!(is_taken, lists[number].len() < 32);
                if is_taken {
                    lists[number].push(event);
                }
            } else {
                let from = if last < row { last + 1 } else { 0 };
                let next = (from..row).chain(0..from).find(|&number| !lists[number].is_empty());
                let expected = next.map(|number| (number, lists[number].remove(0)));
                let heard = turn(&mut desk, (&table, opened(2, NUMBER, 3)), last).unwrap();
                assert_eq!(heard.map(|heard| (heard.number, heard.event)), expected);
                expected.iter().for_each(|&(number, event)| pasts[number].push(event));
                last = next.unwrap_or(last);
            }
        }
        for (tunnel, past) in desk.iter().zip(&pasts) {
            assert_eq!((tunnel.heard as usize, tunnel.first_verdict()), (past.len(), broken(past)));
        }
    }
}

/// Numbers that differ from `NUMBER` in a bit, in a byte, and by one; and the ends.
fn others() -> impl Iterator<Item = u16> {
    let near = [NUMBER - 1, NUMBER + 1, NUMBER ^ 0xff, NUMBER ^ 0xff00, 0x0312, 0, 65535];
    (0..16).map(|bit| NUMBER ^ 1 << bit).chain(near)
}

fn foreign(opening: u16, tunnel: Tunnel) -> Tunnel {
    Tunnel { opening, ..tunnel }
}

#[test]
fn a_watch_of_another_opening_is_named_wherever_it_stands() {
    for other in others() {
        for place in 0..4 {
            let mut desk = vec![tunnel(0, &[2]); 4];
            desk[place].opening = other;
            let before = desk.clone();
            assert_eq!(posted(&mut desk, 0, 2), refused(24, place));
            assert_eq!(turned(&mut desk, 0), refused(24, place));
            assert_eq!(desk, before);
        }
    }
    let mut two = vec![blank(), foreign(1, blank()), foreign(2, blank())];
    assert_eq!(turned(&mut two, 0), refused(24, 1));
}

/// A turn at which none waits, and where the foreign watch is not the one whose turn it is.
#[test]
fn a_turn_looks_at_every_watch() {
    assert_eq!(turned(&mut [blank(), foreign(0, blank())], 0), refused(24, 1));
    let mut desk = [tunnel(0, &[1]), blank(), foreign(NUMBER + 1, blank())];
    assert_eq!(turned(&mut desk, 2), refused(24, 2));
}

/// "for all watches before any 13", and behind 14 and 18.
#[test]
fn the_numbers_are_judged_behind_the_row_and_before_every_wrong_watch() {
    for (wrong, _) in wrong() {
        let mut before_it = [wrong.clone(), blank(), foreign(5, blank())];
        assert_eq!(posted(&mut before_it, 0, 0), refused(24, 2));
        assert_eq!(turned(&mut before_it, 0), refused(24, 2));
        let mut both = [blank(), foreign(5, wrong.clone())];
        assert_eq!(posted(&mut both, 9, 9), refused(24, 1));
        assert_eq!(turned(&mut both, 0), refused(24, 1));
        let mut behind_it = [foreign(5, blank()), wrong];
        assert_eq!(turned(&mut behind_it, 0), refused(24, 0));
        behind_it[0].opening = NUMBER;
        assert_eq!(turned(&mut behind_it, 0), refused(13, 1));
    }
    for row in [0, 65] {
        let mut desk = vec![foreign(5, tunnel(3, &[9])); row];
        assert_eq!(posted(&mut desk, 99, 9), refused(18, 0));
        assert_eq!(turned(&mut desk, 99), refused(18, 0));
    }
    let table = p12().to_bytes();
    let mut desk = [foreign(5, tunnel(3, &[9]))];
    for given in [0, opened(2, NUMBER, 4), opened(5, NUMBER, 3), u64::MAX] {
        assert_eq!(post(&mut desk, (&table, given), 99, 9), refused(14, 0));
        assert_eq!(turn(&mut desk, (&table, given), 99), refused(14, 0));
    }
}

/// 19, 12, 20 and 21 apply as well, and come later.
#[test]
fn the_numbers_are_judged_before_what_is_posted() {
    let full = tunnel(0, &[0; 32]);
    let last = aged(u32::MAX, blank());
    let mut desk = [foreign(0, blank()), full, last];
    for (number, event, by) in [(3, 0, 19), (0, 4, 12), (0, 3, 12), (1, 0, 20), (2, 0, 21)] {
        desk[0].opening = 0;
        assert_eq!(posted(&mut desk, number, event), refused(24, 0));
        desk[0].opening = NUMBER;
        assert_eq!(posted(&mut desk, number, event), refused(by, number));
    }
}

/// A fresh desk takes the number of its opening, whatever numbers stood there; then it is served
/// by openings with that number, and by no other.
#[test]
fn a_fresh_desk_is_of_its_opening() {
    let table = p12().to_bytes();
    for number in others() {
        let own = (&table[..], opened(2, number, 3));
        let mut desk = vec![blank(), foreign(1, tunnel(9, &[9])), foreign(2, blank())];
        assert_eq!(fresh(&mut desk, own), Ok(()));
        assert!(desk.iter().all(|tunnel| *tunnel == Tunnel::fresh(number, Undecided)));
        assert_eq!(posted(&mut desk, 1, 1), refused(24, 0));
        assert_eq!(turned(&mut desk, 1), refused(24, 0));
        assert_eq!(post(&mut desk, own, 1, 1), Ok(()));
        let state = State { opening: number, number: 1 };
        let expected = Heard { number: 1, event: 1, state, verdict: Undecided };
        assert_eq!(turn(&mut desk, own, 1), Ok(Some(expected)));
        assert_eq!(desk[1].stands(), state);
        assert!(desk.iter().all(|tunnel| tunnel.opening == number));
    }
}

/// Another table with the same number is not told apart: 13 and 12 go by the table at hand.
#[test]
fn two_tables_with_one_number_are_not_told_apart() {
    let (small, large) = (document_monitors()[2].clone(), p12());
    let (small, large) = (small.to_bytes(), large.to_bytes());
    let (small, large) = ((&small[..], opened(1, NUMBER, 3)), (&large[..], opened(2, NUMBER, 3)));
    let mut desk = [blank()];
    assert_eq!(fresh(&mut desk, large), Ok(()));
    assert_eq!(post(&mut desk, large, 0, 1), Ok(()));
    assert!(turn(&mut desk.clone(), small, 0).is_ok());
    assert_eq!(post(&mut desk, small, 0, 2), refused(12, 0));
    assert_eq!(post(&mut desk, large, 0, 2), Ok(()));
    assert_eq!(turn(&mut desk, small, 0), refused(13, 0));
}
