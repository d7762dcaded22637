//! States, events and openings to run a table with. The table need not be good.

use oracle::counted;
use oracle::openings::State;
use oracle::rng::Rng;
use oracle::table::{row_length, Monitor, HEADER_LENGTH, NO_SUCCESSOR};

use super::openings;
use crate::answer;
use crate::case::Step;

/// The lengths about which the library starts to copy rows.
const LONG: [usize; 3] = [4095, 4096, 4097];

/// The number of signals that the table claims, or any.
fn signals(rng: &mut Rng, table: &[u8]) -> u8 {
    match table.get(4) {
        Some(signals @ 1..=4) => *signals,
        _ => 1 + rng.byte_below(4),
    }
}

/// The number of states that the table claims.
fn states(table: &[u8]) -> u16 {
    match table {
        [_, _, _, _, _, low, high, ..] => u16::from_le_bytes([*low, *high]),
        _ => 0,
    }
}

/// Any number, or one near a bound.
pub fn number(rng: &mut Rng) -> u64 {
    let (high, low) = (rng.below(1 << 32) as u64, rng.below(1 << 32) as u64);
    *rng.pick(&[0, 1, u64::MAX, low, high << 32 | low])
}

/// Mostly a state of the table, now and then one that it has not; mostly with the number of the
/// opening, now and then with another.
pub fn state(rng: &mut Rng, table: &[u8], opening: u16) -> State {
    let (states, any) = (states(table), rng.below(65536) as u16);
    let number = match rng.below(20) {
        0 => *rng.pick(&[states, states.wrapping_add(1), states.wrapping_add(256), 256, 65535]),
        1 => *rng.pick(&[any, opening]),
        _ => rng.below(usize::from(states).max(1)) as u16,
    };
    match rng.below(6) {
        0 => State { opening: openings::other(rng, opening), number },
        _ => State { opening, number },
    }
}

/// What opening the table with a number answers, a refusal too, or another opening.
pub fn opened(rng: &mut Rng, table: &[u8], number: u16) -> u64 {
    match rng.below(8) {
        0 => stray_opened(rng, table, number),
        _ => answer::opening(&Monitor::open(table), number),
    }
}

/// The bytes that can be handed to a table as events, as its first row says.
pub struct Events {
    signals: u8,
    possible: Vec<u8>,
    impossible: Vec<u8>,
}

impl Events {
    fn of(rng: &mut Rng, table: &[u8]) -> Self {
        Self::over(signals(rng, table), table)
    }

    pub fn over(signals: u8, table: &[u8]) -> Self {
        let is_possible = |event: &u8| {
            let place = HEADER_LENGTH + 5 + 2 * usize::from(*event);
            table.get(place..place + 2) != Some(&NO_SUCCESSOR.to_le_bytes())
        };
        let (possible, impossible) = (0..1 << signals).partition(is_possible);
        Events { signals, possible, impossible }
    }

    /// One that can happen, or any where none can.
    pub fn good(&self, rng: &mut Rng) -> u8 {
        match self.possible.is_empty() {
            true => rng.byte_below(1 << self.signals),
            false => *rng.pick(&self.possible),
        }
    }

    /// One that cannot happen, if there is such.
    pub fn impossible(&self, rng: &mut Rng) -> Option<&u8> {
        (!self.impossible.is_empty()).then(|| rng.pick(&self.impossible))
    }

    /// A byte that is no event, or an event that cannot happen.
    pub fn bad(&self, rng: &mut Rng) -> u8 {
        if !self.impossible.is_empty() && rng.chance(60) {
            return *rng.pick(&self.impossible);
        }
        let first = 1 << self.signals;
        let any = first + rng.byte_below(256 - usize::from(first));
        *rng.pick(&[first, first + 1, any, any, 255])
    }
}

/// At most 64 events, in one list of five with some that are none or cannot happen.
pub fn list(rng: &mut Rng, table: &[u8]) -> Vec<u8> {
    let all = Events::of(rng, table);
    let count = if rng.chance(50) { rng.below(12) } else { rng.between(0, 64) };
    let mut events: Vec<u8> = (0..count).map(|_| all.good(rng)).collect();
    if count > 0 && rng.chance(20) {
        for _ in 0..rng.between(1, 3) {
            let place = rng.below(count);
            events[place] = all.bad(rng);
        }
    }
    events
}

/// Thousands of events: any, or few other than the lowest, the first of them late, so that a
/// verdict may come late.
pub fn long_list(rng: &mut Rng, table: &[u8]) -> Vec<u8> {
    let all = Events::of(rng, table);
    let count = if rng.chance(50) { *rng.pick(&LONG) } else { rng.between(5000, 9000) };
    let mut events = vec![all.possible.first().copied().unwrap_or(0); count];
    if rng.chance(50) {
        events.iter_mut().for_each(|place| *place = all.good(rng));
    } else {
        let first = rng.below(count);
        for _ in 0..rng.below(300) {
            let place = rng.between(first, count - 1);
            events[place] = all.good(rng);
        }
    }
    if rng.chance(20) {
        let anywhere = rng.below(count);
        let place = *rng.pick(&[0, count - 1, anywhere]);
        events[place] = all.bad(rng);
    }
    events
}

pub fn step(rng: &mut Rng, table: &[u8], opening: u16) -> Step {
    let all = Events::of(rng, table);
    let state = state(rng, table, opening);
    let event = if rng.chance(85) { all.good(rng) } else { all.bad(rng) };
    Step { state, event }
}

/// The opening with a number of a table that would have as many bytes, whatever stands in them: that
/// of a table whose bytes changed after it was opened. Over this many signals, if there is such.
fn fitting(table: &[u8], signals: u8, number: u16) -> Option<u64> {
    let rows = table.len().checked_sub(HEADER_LENGTH)?;
    let states = rows / row_length(signals);
    let fits = rows % row_length(signals) == 0;
    fits.then_some(counted::opened(signals, number, states))
}

/// An opening that need not be the table's, mostly with this number.
pub fn stray_opened(rng: &mut Rng, table: &[u8], number: u16) -> u64 {
    let any = self::number(rng);
    let refusal = rng.below(25) as u64 * (1 << 56) + rng.below(300) as u64;
    let fit: Vec<u64> = (1..=4).filter_map(|signals| fitting(table, signals, number)).collect();
    let with = |signals: u8, states: usize| counted::opened(signals, number, states);
    match rng.below(13) {
        0 => any,
        1 => refusal,
        2 => with(4, 65535),
        3 => with(rng.byte_below(7), 0),
        4 => with(5, states(table).into()),
        5 => with(rng.byte_below(6), rng.below(65536)),
        6 => with(rng.byte_below(6), rng.below(300)),
        7 if !fit.is_empty() => rng.pick(&fit).wrapping_add(rng.below(3) as u64).wrapping_sub(1),
        // The table's, if only the lowest bits of its signals were read.
        8 if !fit.is_empty() => *rng.pick(&fit) | 1 << rng.between(35, 63),
        _ if !fit.is_empty() => *rng.pick(&fit),
        _ => with(signals(rng, table), states(table).into()),
    }
}

/// A step with an opening that need not be the table's.
pub fn stray(rng: &mut Rng, table: &[u8]) -> (u64, Step) {
    let number = openings::number(rng);
    let opened = stray_opened(rng, table, number);
    let mut step = step(rng, table, number);
    if rng.chance(60) {
        step.state.number = rng.below(((opened % 65536) as usize).max(1)) as u16;
    }
    (opened, step)
}
