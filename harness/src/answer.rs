//! Answers of the oracle in the forms in which the library and its wrapper give theirs.

use oracle::counted;
use oracle::desk::{Heard, Served, Tunnel};
use oracle::openings::{Arrived, State};
use oracle::refusal::Refusal;
use oracle::table::{Monitor, Verdict};

use crate::tefuji;

/// Where a run's count says "none".
const NONE: u64 = u64::MAX;
/// The highest place that an answer shows.
const LAST_PLACE: u64 = (1 << 56) - 1;
/// What a turn answers beside what it heard.
const HEARD: u64 = 1 << 55;

/// One number: what was asked for, or the refusal's number in the top byte and its place below.
pub fn code(answer: Result<u64, Refusal>) -> u64 {
    match answer {
        Ok(number) => number,
        Err(refusal) => u64::from(refusal.number) << 56 | place(refusal),
    }
}

fn place(refusal: Refusal) -> u64 {
    (refusal.place as u64).min(LAST_PLACE)
}

/// What `tefuji_open` answers, with this number.
pub fn opening(found: &Result<Monitor, Refusal>, number: u16) -> u64 {
    code(found.as_ref().map(|monitor| opened(monitor, number)).map_err(|&refusal| refusal))
}

/// The opening of a good table with a number.
pub fn opened(monitor: &Monitor, number: u16) -> u64 {
    counted::opened(monitor.signals, number, monitor.states.len())
}

/// A state as one number.
pub fn bits(state: State) -> u32 {
    u32::from(state.opening) << 16 | u32::from(state.number)
}

/// A verdict with a state, which may be none.
fn reached_code(verdict: Verdict, state: u32) -> u64 {
    u64::from(verdict.to_byte()) << 32 | u64::from(state)
}

/// What `tefuji_run` and `tefuji_step` answer.
pub fn arrived(result: Result<Arrived, Refusal>) -> u64 {
    code(result.map(|end| reached_code(end.verdict, bits(end.state))))
}

/// What `tefuji_judge` answers; there is no end state.
pub fn judged(result: Result<Verdict, Refusal>) -> u64 {
    code(result.map(|verdict| reached_code(verdict, 0)))
}

/// What a run leaves in the cell of its count, in which `before` was.
pub fn counted(result: Result<Arrived, Refusal>, before: u64) -> u64 {
    match result {
        Ok(end) => end.count.map_or(NONE, |count| count as u64),
        Err(_) => before,
    }
}

/// What `tefuji_fresh`, `tefuji_post` and `tefuji_turn` answer; the first two hear nothing.
pub fn served(answer: Served) -> u64 {
    let heard = |Heard { number, event, state, verdict }| {
        let (number, event) = ((number as u64) << 48, u64::from(event) << 40);
        HEARD | number | event | reached_code(verdict, bits(state))
    };
    code(answer.map(|answer| answer.map_or(0, heard)))
}

pub fn heard(Heard { number, event, state, verdict }: Heard) -> tefuji::Heard {
    tefuji::Heard { number, event, reached: reached_state(state, verdict) }
}

pub fn watch(tunnel: &Tunnel) -> tefuji::Watch {
    let &Tunnel { state, opening, waiting, filled, heard, first, ref slots } = tunnel;
    let slots: Vec<u8> = slots.iter().copied().collect();
    let events = slots.try_into().expect("a tunnel has as many slots as a watch");
    tefuji::Watch { state, opening, waiting, filled, heard, first, events }
}

pub fn refusal(refusal: Refusal) -> tefuji::Refusal {
    tefuji::Refusal { number: refusal.number, place: place(refusal) }
}

pub fn state(state: State) -> tefuji::State {
    tefuji::State::from_bits(bits(state))
}

pub fn reached(end: Arrived) -> tefuji::Reached {
    reached_state(end.state, end.verdict)
}

fn reached_state(of: State, shown: Verdict) -> tefuji::Reached {
    tefuji::Reached { state: state(of), verdict: verdict(shown) }
}

pub fn verdict(verdict: Verdict) -> tefuji::Verdict {
    match verdict {
        Verdict::Undecided => tefuji::Verdict::Undecided,
        Verdict::Satisfied => tefuji::Verdict::Satisfied,
        Verdict::Violated => tefuji::Verdict::Violated,
        Verdict::Moot => tefuji::Verdict::Moot,
    }
}

pub fn ended(end: Arrived) -> tefuji::Ended {
    tefuji::Ended { reached: reached(end), count: end.count.map(|count| count as u64) }
}
