//! Running and opening tables: the proved library beside plain loops.

use std::hint::black_box;

use oracle::mask::{self, Mask};
use oracle::rng::Rng;
use oracle::table::{Monitor, MonitorState, Verdict};
use oracle::vectors::table_samples::leaving;

use crate::clock::Work;
use crate::tefuji::{Opened, State};

const SEED: u64 = 0x5eed_0000_0000_0009;
/// The number of every opening.
const NUMBER: u16 = 4660;

/// A table whose states are all undecided, so that a run looks at every verdict.
pub fn random_table(rng: &mut Rng, signals: u8, states: u16) -> Monitor {
    let successors =
        |rng: &mut Rng| (0..1 << signals).map(|_| rng.below(states.into()) as u16).collect();
    let states = (0..states)
        .map(|_| MonitorState { verdict: Verdict::Undecided, successors: successors(rng) })
        .collect();
    Monitor { signals, states }
}

/// The tables with impossible events: their signals, and the events that can happen.
const MASKED: [(u8, Mask); 3] = [(2, 0b0111), (4, 0x5a3c), (4, 0x7fff)];

fn u16_at(bytes: &[u8], place: usize) -> u16 {
    u16::from_le_bytes([bytes[place], bytes[place + 1]])
}

/// The successors, one row after the other, and the verdicts; and the number with which it was opened.
struct Decoded {
    number: u16,
    successors: Vec<u16>,
    verdicts: Vec<u8>,
    events: usize,
}

impl Decoded {
    fn of(table: &[u8], number: u16) -> Self {
        let events = 1 << table[4];
        let rows = table[7..].chunks(5 + 2 * events);
        let successors =
            rows.clone().flat_map(|row| (0..events).map(|event| u16_at(row, 5 + 2 * event)));
        Decoded {
            number,
            successors: successors.collect(),
            verdicts: rows.clone().map(|row| row[4]).collect(),
            events,
        }
    }

    /// Follows the events and does nothing else.
    fn follow(&self, events: &[u8]) -> u16 {
        let mut state = 0;
        for &event in events {
            state = self.successors[usize::from(state) * self.events + usize::from(event)];
        }
        state
    }

    /// The same job as a run: refuses a state of another opening or none of the table and a wrong event, and counts up to the first verdict.
    fn run(
        &self,
        from: State,
        events: &[u8],
        is_event: impl Fn(u8) -> bool,
    ) -> Option<(State, u8, Option<usize>)> {
        let mut state = from.number();
        if from.opening() != self.number || usize::from(state) >= self.verdicts.len() {
            return None;
        }
        let mut count = (self.verdicts[usize::from(state)] != 0).then_some(0);
        for (index, &event) in events.iter().enumerate() {
            if !is_event(event) {
                return None;
            }
            state = self.successors[usize::from(state) * self.events + usize::from(event)];
            if count.is_none() && self.verdicts[usize::from(state)] != 0 {
                count = Some(index + 1);
            }
        }
        let end = State::from_bits(u32::from(self.number) << 16 | u32::from(state));
        Some((end, self.verdicts[usize::from(state)], count))
    }
}

/// Follows the events over the table's own bytes and does nothing else.
fn bare_walk(table: &[u8], events: &[u8]) -> u16 {
    let row = 5 + (2 << table[4]);
    let mut state = 0;
    for &event in events {
        state = u16_at(table, 12 + usize::from(state) * row + 2 * usize::from(event));
    }
    state
}

fn steps(opened: Opened, events: &[u8]) -> State {
    let mut state = opened.start();
    for &event in events {
        state = opened.step(state, event).expect("the event can happen").state;
    }
    state
}

/// Without a mask the same job refuses what is not below 2^signals.
fn report_runs(work: &Work, rng: &mut Rng, signals: u8) {
    let table = random_table(rng, signals, 244).to_bytes();
    let events: Vec<u8> = (0..work.events).map(|_| rng.byte_below(1 << signals)).collect();
    report_run(work, &format!("{signals} signals"), &table, &events, |event| event < 1 << signals);
}

/// With one it refuses what has no bit in the mask.
fn report_masked_runs(work: &Work, rng: &mut Rng, signals: u8, mask: Mask) {
    let table = leaving(random_table(rng, signals, 244), mask).to_bytes();
    let possible: Vec<u8> = mask::events(mask).collect();
    let events: Vec<u8> = (0..work.events).map(|_| *rng.pick(&possible)).collect();
    let name = format!("{signals} signals, {} of {} events", possible.len(), 1 << signals);
    let mask = u32::from(mask);
    report_run(work, &name, &table, &events, |event| event < 16 && mask >> event & 1 == 1);
}

fn report_run(
    work: &Work,
    name: &str,
    table: &[u8],
    events: &[u8],
    is_event: impl Fn(u8) -> bool + Copy,
) {
    let decoded = Decoded::of(table, NUMBER);
    let opened = Opened::open(table, NUMBER).expect("the table is well-formed");
    let start = opened.start();
    let end = opened.run(start, events).expect("the run is good").reached.state;
    assert_eq!((end.number(), end.opening()), (decoded.follow(events), NUMBER));
    assert_eq!(end.number(), bare_walk(table, events));
    assert_eq!(end, steps(opened, events));
    assert_eq!(Some((end, 0, None)), decoded.run(start, events, is_event));
    let foreign = State::from_bits(start.to_bits() ^ 1 << 16);
    assert_eq!(decoded.run(foreign, events, is_event), None);
    assert_eq!(opened.run(foreign, events).map_err(|refusal| refusal.number), Err(24));
    let per_event = |total: f64| total / work.events as f64;
    let proved = per_event(work.nanoseconds(|| opened.run(black_box(start), black_box(events))));
    let plain = per_event(work.nanoseconds(|| decoded.follow(black_box(events))));
    let same_job =
        per_event(work.nanoseconds(|| decoded.run(black_box(start), black_box(events), is_event)));
    let bare = per_event(work.nanoseconds(|| bare_walk(black_box(table), black_box(events))));
    let stepped = per_event(work.nanoseconds(|| steps(opened, black_box(events))));
    println!(
        "| {name} | {proved:.2} | {plain:.2} ({:.2}) | {same_job:.2} ({:.2}) | {bare:.2} ({:.2}) | {stepped:.2} |",
        proved / plain,
        proved / same_job,
        proved / bare
    );
}

fn report_opening(work: &Work, name: &str, table: &[u8]) {
    let proved = work.nanoseconds(|| Opened::open(black_box(table), NUMBER).is_ok()) / 1000.0;
    let plain = work.nanoseconds(|| Monitor::open(black_box(table)).is_ok()) / 1000.0;
    println!("| {name} | {} | {proved:.2} | {plain:.2} |", table.len());
}

pub fn report(work: &Work) {
    let mut rng = Rng::new(SEED);
    println!(
        "\nRunning {} events over 244 undecided states, ns an event; in brackets proved ÷ this.\n",
        work.events
    );
    println!("| table | proved run | decoded u16 loop | decoded, same job | bare two-byte walk | proved steps, a call each |");
    println!("|---|---|---|---|---|---|");
    for signals in [1, 2, 3, 4] {
        report_runs(work, &mut rng, signals);
    }
    for (signals, mask) in MASKED {
        report_masked_runs(work, &mut rng, signals, mask);
    }
    println!(
        "\n| opening (every byte checked) | bytes | µs | oracle's reader, µs |\n|---|---|---|---|"
    );
    for (signals, states) in [(1, 3), (3, 28), (3, 82), (3, 244), (4, 256)] {
        let table = random_table(&mut rng, signals, states).to_bytes();
        report_opening(work, &format!("{states} states, {signals} signals"), &table);
    }
    for (signals, mask) in MASKED {
        let table = leaving(random_table(&mut rng, signals, 256), mask).to_bytes();
        let (possible, all) = (mask.count_ones(), 1 << signals);
        let name = format!("256 states, {signals} signals, {possible} of {all} events");
        report_opening(work, &name, &table);
    }
}
