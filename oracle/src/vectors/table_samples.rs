//! Good monitors: those of document 01, slow ones, and random ones; each also with events
//! that cannot happen.

use crate::mask::{self, Mask};
use crate::random_masks::any_mask;
use crate::rng::Rng;
use crate::table::{Monitor, MonitorState, Verdict, NO_SUCCESSOR};

use Verdict::{Moot, Satisfied, Undecided, Violated};

/// A row as verdict and successors.
type Row<'a> = (Verdict, &'a [u16]);

fn monitor(signals: u8, rows: &[Row]) -> Monitor {
    let states = rows
        .iter()
        .map(|&(verdict, successors)| MonitorState { verdict, successors: successors.to_vec() })
        .collect();
    Monitor { signals, states }
}

pub fn p3() -> Monitor {
    monitor(1, &[(Undecided, &[1, 2]), (Violated, &[1, 1]), (Satisfied, &[2, 2])])
}

pub fn p12() -> Monitor {
    let rows: [Row; 3] =
        [(Undecided, &[0, 1, 0, 1]), (Undecided, &[1, 2, 0, 1]), (Violated, &[2, 2, 2, 2])];
    monitor(2, &rows)
}

fn p9() -> Monitor {
    let rows: [Row; 3] =
        [(Undecided, &[1, 0, 2, 2]), (Violated, &[1, 1, 1, 1]), (Satisfied, &[2, 2, 2, 2])];
    monitor(2, &rows)
}

fn p13() -> Monitor {
    let rows: [Row; 3] =
        [(Undecided, &[1, 1, 2, 2]), (Violated, &[1, 1, 1, 1]), (Moot, &[2, 2, 2, 2])];
    monitor(2, &rows)
}

/// P12 where p and q never come together.
pub fn p12_apart() -> Monitor {
    let rows: [Row; 3] = [
        (Undecided, &[0, 1, 0, 65535]),
        (Undecided, &[1, 2, 0, 65535]),
        (Violated, &[2, 2, 2, 65535]),
    ];
    monitor(2, &rows)
}

/// The monitor in which only the events of a mask can happen.
pub fn leaving(mut monitor: Monitor, mask: Mask) -> Monitor {
    for state in &mut monitor.states {
        let successors = (0..).zip(&mut state.successors);
        let impossible = successors.filter(|&(event, _)| !mask::has(mask, event));
        impossible.for_each(|(_, successor)| *successor = NO_SUCCESSOR);
    }
    monitor
}

/// The monitor in which any events can happen.
pub fn masked(rng: &mut Rng, monitor: Monitor) -> Monitor {
    let mask = any_mask(rng, monitor.signals);
    leaving(monitor, mask)
}

/// The tables of P1 to P6, P9, P10, P12 and P13.
pub fn document_monitors() -> Vec<Monitor> {
    vec![
        monitor(1, &[(Satisfied, &[0, 0])]),
        monitor(1, &[(Violated, &[0, 0])]),
        p3(),
        monitor(1, &[(Undecided, &[1, 0]), (Violated, &[1, 1])]),
        monitor(1, &[(Undecided, &[0, 1]), (Satisfied, &[1, 1])]),
        monitor(1, &[(Moot, &[0, 0])]),
        p9(),
        monitor(2, &[(Undecided, &[1, 0, 0, 0]), (Violated, &[1, 1, 1, 1])]),
        p12(),
        p13(),
    ]
}

/// Event 0 stays, every other event moves on; only the last state is decided.
pub fn chain(signals: u8, state_count: u16, last_verdict: Verdict) -> Monitor {
    let last = state_count - 1;
    let states = (0..state_count)
        .map(|state| {
            let mut successors = vec![(state + 1).min(last); 1 << signals];
            successors[0] = state;
            let verdict = if state == last { last_verdict } else { Undecided };
            MonitorState { verdict, successors }
        })
        .collect();
    Monitor { signals, states }
}

/// A monitor with any successors, in which about so many of 100 states are
/// undecided.
pub fn random_monitor(rng: &mut Rng, signals: u8, state_count: usize, undecided: usize) -> Monitor {
    let states = (0..state_count)
        .map(|_| MonitorState {
            verdict: random_verdict(rng, undecided),
            successors: (0..1 << signals).map(|_| rng.below(state_count) as u16).collect(),
        })
        .collect();
    Monitor { signals, states }
}

fn random_verdict(rng: &mut Rng, undecided: usize) -> Verdict {
    if rng.chance(undecided) {
        Undecided
    } else {
        *rng.pick(&Verdict::DECIDED)
    }
}

/// A monitor of 1 to `limit` states, with many, few or no verdicts.
pub fn random_small_monitor(rng: &mut Rng, limit: usize) -> Monitor {
    let signals = 1 + rng.byte_below(4);
    let state_count = rng.between(1, limit);
    let undecided = *rng.pick(&[0, 30, 60, 80, 95, 100]);
    random_monitor(rng, signals, state_count, undecided)
}

/// Events that the monitor takes.
pub fn random_events(rng: &mut Rng, monitor: &Monitor, count: usize) -> Vec<u8> {
    let possible: Vec<u8> = mask::events(monitor.possible()).collect();
    (0..count).map(|_| *rng.pick(&possible)).collect()
}

/// The events below 2^P that cannot happen.
pub fn impossible_events(monitor: &Monitor) -> Vec<u8> {
    mask::events(mask::full(monitor.signals) & !monitor.possible()).collect()
}

#[cfg(test)]
mod tests {
    use super::*;

    #[test]
    fn every_good_monitor_is_read_back() {
        let mut rng = Rng::new(21);
        let mut monitors = document_monitors();
        monitors.extend([chain(1, 256, Moot), chain(4, 256, Violated), chain(2, 1, Satisfied)]);
        monitors.extend((0..200).map(|_| random_small_monitor(&mut rng, 40)));
        monitors.push(p12_apart());
        for _ in 0..200 {
            let monitor = random_small_monitor(&mut rng, 40);
            monitors.push(masked(&mut rng, monitor));
        }
        for monitor in monitors {
            assert_eq!(Monitor::open(&monitor.to_bytes()), Ok(monitor));
        }
    }

    #[test]
    fn a_mask_leaves_its_events() {
        assert_eq!(leaving(p12(), 7), p12_apart());
        let left = leaving(chain(3, 4, Moot), 0b1000_0001);
        assert_eq!(left.possible(), 0b1000_0001);
        assert_eq!(impossible_events(&left), [1, 2, 3, 4, 5, 6]);
        assert_eq!(impossible_events(&p12()), []);
    }
}
