//! Pairs of recordings of the same events: with any gaps, some of them wrong, over a table that may
//! have changed since it was opened.

use oracle::counted::{self, Counted};
use oracle::random_recordings::{recording, two_recordings};
use oracle::recordings::{choices, Seen};
use oracle::rng::Rng;
use oracle::table::{row_length, Monitor, Verdict, HEADER_LENGTH, NO_SUCCESSOR};
use oracle::vectors::table_samples as samples;

use super::desks::change_rows;
use super::events::{self, Events};
use super::openings;
use super::tables::{perhaps_masked, Tables};
use super::Made;
use crate::case::{Case, Input, Recordings};

/// Lengths in events about which a number of one byte would be too small.
const AROUND_256: [usize; 3] = [255, 256, 257];
/// How many of 100 signals a recording knows.
const KNOWN: [usize; 7] = [0, 20, 50, 50, 80, 95, 100];

pub fn case(tables: &Tables, rng: &mut Rng) -> Case {
    let (made, number) = (table(tables, rng), openings::number(rng));
    let held = Held::new(made, number).perhaps_changed(rng);
    let pairs = (0..rng.between(3, 5)).map(|_| held.recordings(rng)).collect();
    Case { origin: held.origin, input: Input::Judge { table: held.table, pairs } }
}

/// Any good table; more often than otherwise one that keeps its verdicts as built ones do, or one
/// of 256 states.
fn table(tables: &Tables, rng: &mut Rng) -> Made {
    match rng.below(20) {
        0..=5 => Made { origin: "lasting", bytes: lasting(rng) },
        6..=7 => Made { origin: "of 256", bytes: of_256(rng) },
        8..=9 => Made { origin: "one event", bytes: one_event(rng) },
        _ => tables.good(rng),
    }
}

/// A few states; those with a verdict lead to themselves. Often some events cannot happen.
fn lasting(rng: &mut Rng) -> Vec<u8> {
    let (signals, states) = (1 + rng.byte_below(4), rng.between(2, 8));
    let mut monitor = samples::random_monitor(rng, signals, states, 60);
    monitor.states[0].verdict = Verdict::Undecided;
    let decided = |state: &oracle::table::MonitorState| state.verdict != Verdict::Undecided;
    for (number, state) in (0..).zip(&mut monitor.states).filter(|(_, state)| decided(state)) {
        state.successors.fill(number);
    }
    match rng.chance(60) {
        true => samples::masked(rng, monitor).to_bytes(),
        false => monitor.to_bytes(),
    }
}

/// 256 states of which a run soon can stand in many, or in all that come one after the other.
fn of_256(rng: &mut Rng) -> Vec<u8> {
    let signals = 1 + rng.byte_below(4);
    let monitor = match rng.below(3) {
        0 => ring(signals, *rng.pick(&Verdict::DECIDED)),
        1 => one_other(rng, signals),
        _ => {
            let undecided = *rng.pick(&[0, 50, 97, 100]);
            samples::random_monitor(rng, signals, 256, undecided)
        }
    };
    perhaps_masked(rng, monitor)
}

/// One event alone, often the last, leaves the rule open; all others lead to a verdict.
fn one_event(rng: &mut Rng) -> Vec<u8> {
    let signals = 2 + rng.byte_below(3);
    let mut monitor = samples::chain(signals, 2, *rng.pick(&Verdict::DECIDED));
    let (last, any) = ((1 << signals) - 1, rng.below(1 << signals));
    monitor.states[0].successors.swap(0, *rng.pick(&[last, last, any]));
    monitor.to_bytes()
}

/// All of 256 states but one show the same verdict, so that it tells whether that one is met.
fn one_other(rng: &mut Rng, signals: u8) -> Monitor {
    let mut monitor = samples::random_monitor(rng, signals, 256, 0);
    let verdict = *rng.pick(&Verdict::DECIDED);
    monitor.states.iter_mut().for_each(|state| state.verdict = verdict);
    let any = rng.below(256);
    monitor.states[*rng.pick(&[0, any, any, 255])].verdict = Verdict::Undecided;
    monitor
}

/// Each event but 0 leads to the next of 256 states, the last to the first; the last alone shows a
/// verdict.
fn ring(signals: u8, verdict: Verdict) -> Monitor {
    let mut monitor = samples::chain(signals, 256, verdict);
    monitor.states[255].successors[1..].fill(0);
    monitor
}

/// A table, what opening it with a number answered, and the events that can happen.
struct Held {
    origin: &'static str,
    table: Vec<u8>,
    number: u16,
    opened: u64,
    signals: u8,
    states: u16,
    events: Events,
}

impl Held {
    fn new(Made { origin, bytes: table }: Made, number: u16) -> Self {
        let (signals, states) = (table[4], u16::from_le_bytes([table[5], table[6]]));
        let opened = counted::opened(signals, number, states.into());
        let events = Events::over(signals, &table);
        Held { origin, table, number, opened, signals, states, events }
    }

    /// Some have other bytes by now, in many rows or at one place.
    fn perhaps_changed(mut self, rng: &mut Rng) -> Self {
        if rng.chance(30) {
            match rng.below(6) {
                0 => change_rows(rng, &mut self.table, self.states),
                1 => self.take_events(rng),
                _ => self.change_place(rng),
            }
            self.events = Events::over(self.signals, &self.table);
            self.origin = "changed";
        }
        self
    }

    /// What no table has in one row, mostly a later one: a verdict byte or a successor.
    fn change_place(&mut self, rng: &mut Rng) {
        let last = usize::from(self.states) - 1;
        let later = rng.between(last.min(1), last);
        let row =
            HEADER_LENGTH + *rng.pick(&[0, later, later, later, last]) * row_length(self.signals);
        if rng.chance(60) {
            self.table[row + 4] = *rng.pick(&[4, 5, 128, 255]);
            return;
        }
        let place = row + 5 + 2 * rng.below(1 << self.signals);
        let past = [self.states, self.states + 1, 256, 65534];
        let value = if rng.chance(50) { NO_SUCCESSOR } else { *rng.pick(&past) };
        self.table[place..place + 2].copy_from_slice(&value.to_le_bytes());
    }

    /// Takes events out of the first row: one, or all.
    fn take_events(&mut self, rng: &mut Rng) {
        let one = rng.below(1 << self.signals);
        let takes_all = rng.chance(50);
        let row = &mut self.table[HEADER_LENGTH + 5..];
        for event in (0..1 << self.signals).filter(|&event| takes_all || event == one) {
            row[2 * event..2 * event + 2].fill(255);
        }
    }

    /// The table as it is read with its own opening.
    fn counted(&self) -> Counted<'_> {
        Counted::new(&self.table, self.opened).expect("the length is as it was")
    }

    fn recordings(&self, rng: &mut Rng) -> Recordings {
        let count = self.length(rng);
        let truth: Vec<u8> = (0..count).map(|_| self.events.good(rng)).collect();
        let [mut first, mut second] = self.seen(rng, &truth);
        if count > 0 && rng.chance(if count > 255 { 65 } else { 45 }) {
            self.spoil_events(rng, [&mut first, &mut second]);
        }
        if rng.below(10) == 0 {
            spoil_lengths(rng, [&mut first, &mut second]);
        }
        let opened = match rng.below(10) {
            0 => events::stray_opened(rng, &self.table, self.number),
            _ => self.opened,
        };
        Recordings { opened, first, second }
    }

    /// Mostly few events, now and then hundreds, or a thousand and more.
    fn length(&self, rng: &mut Rng) -> usize {
        match rng.below(40) {
            0..=3 => 0,
            4..=19 => rng.between(1, 3),
            20..=33 => rng.between(4, 12),
            34..=35 => rng.between(13, 40),
            // Over many states these would take long.
            _ if self.states > 20 => rng.between(1, 12),
            36 => rng.between(1, 3),
            37..=38 => *rng.pick(&AROUND_256),
            _ if rng.chance(60) => rng.between(1000, 1040),
            _ => rng.between(65, 130),
        }
    }

    /// Two recordings of what took place: each knows its own signals, or any at each event; or all
    /// is known to the one and nothing to the other, or to neither.
    fn seen(&self, rng: &mut Rng, truth: &[u8]) -> [Vec<u8>; 2] {
        let own = |known: u8| truth.iter().flat_map(|&event| [known, event & known]).collect();
        let all = (1 << self.signals) - 1;
        match rng.below(10) {
            0..=1 => [(); 2].map(|()| own(rng.byte_below(1 << self.signals))),
            2 => {
                let known = rng.byte_below(1 << self.signals);
                [own(known), own(all & !known)]
            }
            3 => [own(0), own(0)],
            4 => [own(*rng.pick(&[0, all])), own(*rng.pick(&[0, all]))],
            // Only the last events are unknown, or only the first.
            5 => self.seen_but_a_part(rng, truth),
            6 => {
                let unknown = *rng.pick(&[10, 30, 50, 70]);
                two_recordings(rng, self.signals, truth, unknown)
            }
            _ => [(); 2].map(|()| {
                let known = *rng.pick(&KNOWN);
                recording(rng, self.signals, truth, known)
            }),
        }
    }

    fn seen_but_a_part(&self, rng: &mut Rng, truth: &[u8]) -> [Vec<u8>; 2] {
        let all = (1 << self.signals) - 1;
        let known: Vec<u8> = truth.iter().flat_map(|&event| [all, event]).collect();
        let place = 2 * rng.below(truth.len().max(1));
        let mut gap = known.clone();
        match rng.chance(50) {
            true => gap[place..].fill(0),
            false => gap[..place].fill(0),
        }
        [gap.clone(), gap]
    }

    /// One to three faults, of one event or of several, often of the first or the last.
    fn spoil_events(&self, rng: &mut Rng, [first, second]: [&mut [u8]; 2]) {
        let count = first.len() / 2;
        let is_long = count > 255;
        let mut index = rng.below(count);
        for _ in 0..*rng.pick(&[1, 1, 2, 2, 3]) {
            index = match rng.below(6) {
                // Late in a long list, so that the index is large.
                _ if is_long && rng.chance(80) => count - 1 - rng.below(2),
                0..=1 => index,
                2 => 0,
                3 => count - 1,
                _ => rng.below(count),
            };
            let pair = 2 * index..2 * index + 2;
            self.spoil_event(rng, [&mut first[pair.clone()], &mut second[pair]]);
        }
    }

    fn spoil_event(&self, rng: &mut Rng, mut event: [&mut [u8]; 2]) {
        let side = rng.below(2);
        let high = 1 << rng.between(self.signals.into(), 7);
        let bit = 1 << rng.below(self.signals.into());
        if rng.below(3) == 0 && self.make_impossible(rng, &mut event) {
            return;
        }
        match rng.below(11) {
            0..=1 => event[side][0] |= high,
            2..=3 => event[side][1] |= high,
            4 => event[side].iter_mut().for_each(|byte| *byte |= high),
            5..=6 => {
                event[side][0] &= !bit;
                event[side][1] |= bit;
            }
            _ => {
                let on = rng.below(2);
                event.iter_mut().for_each(|event| event[0] |= bit);
                event[on][1] |= bit;
                event[1 - on][1] &= !bit;
            }
        }
    }

    /// Both together know of an event what none that can happen has, if there is such; each a part.
    /// Says whether there is.
    fn make_impossible(&self, rng: &mut Rng, event: &mut [&mut [u8]; 2]) -> bool {
        let table = self.counted();
        let is_impossible = |known: u8, values: u8| {
            let seen = Seen { known, values };
            choices(&table, seen, seen).next().is_none()
        };
        let mut known = (1 << self.signals) - 1;
        let Some(&values) = self.events.impossible(rng) else {
            return false;
        };
        // What is not needed is taken away, now and then.
        for bit in (0..self.signals).map(|signal| 1 << signal) {
            if rng.chance(60) && is_impossible(known & !bit, values & !bit & known) {
                known &= !bit;
            }
        }
        let own = rng.byte_below(16);
        let shared = if rng.chance(30) { rng.byte_below(16) } else { 0 };
        let parts = [known & (own | shared), known & (!own | shared)];
        let contradicts = rng.chance(25);
        for (event, part) in event.iter_mut().zip(parts) {
            event.copy_from_slice(&[part, values & known & part]);
            // What one knows to be on, the other may deny; joined it is on.
            if contradicts && rng.chance(50) {
                event[0] = known;
            }
        }
        true
    }
}

/// Makes the lengths different, or odd, or both.
fn spoil_lengths(rng: &mut Rng, [first, second]: [&mut Vec<u8>; 2]) {
    let (one, other) = if rng.chance(50) { (first, second) } else { (second, first) };
    match rng.below(9) {
        0 => drop(one.pop()),
        1 => one.push(rng.byte_below(256)),
        2 => one.extend([0, 0]),
        3 => one.truncate(one.len().saturating_sub(2)),
        4 => one.clear(),
        5 => one.extend([0; 256]),
        6 => {
            one.push(0);
            other.push(0);
        }
        7 => {
            one.pop();
            other.pop();
        }
        _ => {
            one.push(0);
            other.extend([0; 3]);
        }
    }
}
