//! Byte lists that are not tables, all for refusal 14.

use super::table_samples::{chain, impossible_events};
use crate::mask;
use crate::record::well_sized;
use crate::table::{row_length, Monitor, MonitorState, Verdict};
use crate::table::{HEADER_KIND, HEADER_LENGTH, NO_SUCCESSOR, STATE_KIND};

/// Every way in which this good table can be spoilt in one field or in size.
pub fn spoilt_tables(monitor: &Monitor) -> Vec<Vec<u8>> {
    let last = monitor.states.len() - 1;
    let mut tables = spoilt_headers(monitor);
    for row in [0, last / 2, last] {
        tables.extend(spoilt_rows(monitor, row));
    }
    tables.extend(wrong_sizes(monitor));
    tables
}

/// The table with other bytes at `place`.
fn patched(monitor: &Monitor, place: usize, bytes: &[u8]) -> Vec<u8> {
    let mut table = monitor.to_bytes();
    table[place..place + bytes.len()].copy_from_slice(bytes);
    table
}

fn patched_u16(monitor: &Monitor, place: usize, value: u16) -> Vec<u8> {
    patched(monitor, place, &value.to_le_bytes())
}

fn spoilt_headers(monitor: &Monitor) -> Vec<Vec<u8>> {
    let state_count = monitor.states.len() as u16;
    let mut tables = Vec::new();
    tables.extend([0, 2, 4, 6, 0x0105, 0x0500].map(|length| patched_u16(monitor, 0, length)));
    tables.extend([0, 2, 256, 511, STATE_KIND, 65535].map(|kind| patched_u16(monitor, 2, kind)));
    let other_signals = [0, 1, 2, 3, 4, 5, 128 + monitor.signals, 255];
    let other_signals = other_signals.iter().filter(|&&signals| signals != monitor.signals);
    tables.extend(other_signals.map(|&signals| patched(monitor, 4, &[signals])));
    let other_counts = [0, state_count - 1, state_count + 1, 257, state_count + 256, 65535];
    tables.extend(other_counts.map(|count| patched_u16(monitor, 5, count)));
    tables
}

fn spoilt_rows(monitor: &Monitor, row: usize) -> Vec<Vec<u8>> {
    let state_count = monitor.states.len() as u16;
    let start = HEADER_LENGTH + row * row_length(monitor.signals);
    let length = row_length(monitor.signals) as u16 - 2;
    let last_event = (1 << monitor.signals) - 1;
    let mut tables = Vec::new();
    let lengths = [0, length - 1, length + 1, length + 2, length + 256];
    tables.extend(lengths.map(|length| patched_u16(monitor, start, length)));
    let kinds = [0, 1, 257, HEADER_KIND, STATE_KIND + 1, STATE_KIND + 256];
    tables.extend(kinds.map(|kind| patched_u16(monitor, start + 2, kind)));
    tables.extend([4, 5, 128, 255].map(|verdict| patched(monitor, start + 4, &[verdict])));
    for event in [0, last_event / 2, last_event] {
        let place = start + 5 + 2 * event;
        let successors = [state_count, state_count + 1, 256, 65534];
        tables.extend(successors.map(|successor| patched_u16(monitor, place, successor)));
    }
    tables
}

/// The table with successors missing, or written, where they must not be. The events that can
/// happen are then not the same in every row, or there are none.
pub fn missing_successors(monitor: &Monitor) -> Vec<Vec<u8>> {
    let rows: Vec<usize> = (0..monitor.states.len()).collect();
    let possible: Vec<u8> = mask::events(monitor.possible()).collect();
    let mut spoilt = vec![written(monitor, &rows, &possible, NO_SUCCESSOR)];
    if let [first, .., last] = rows[..] {
        spoilt.extend([first, last / 2, last].iter().flat_map(|&row| uneven(monitor, row)));
    }
    spoilt.iter().map(Monitor::to_bytes).collect()
}

/// The monitor in which other events can happen in one row than in the others.
fn uneven(monitor: &Monitor, row: usize) -> Vec<Monitor> {
    let others: Vec<usize> = (0..monitor.states.len()).filter(|&other| other != row).collect();
    let possible: Vec<u8> = mask::events(monitor.possible()).collect();
    let last_state = monitor.states.len() as u16 - 1;
    let mut uneven = Vec::new();
    for events in [&possible[..1], &possible[possible.len() - 1..], &possible] {
        let either = [&[row][..], &others];
        uneven.extend(either.map(|rows| written(monitor, rows, events, NO_SUCCESSOR)));
    }
    for event in impossible_events(monitor).into_iter().step_by(3) {
        let here = written(monitor, &[row], &[event], last_state);
        uneven.push(written(monitor, &others, &[event], 0));
        uneven.push(written(&here, &[row], &possible[..1], NO_SUCCESSOR));
        uneven.push(here);
    }
    uneven
}

/// What an impossible event must not be written as, in every row: a number that is no state, and
/// not 65,535 either.
pub fn wrong_numbers(monitor: &Monitor) -> Vec<Vec<u8>> {
    let impossible = impossible_events(monitor);
    if impossible.is_empty() {
        return Vec::new();
    }
    let rows: Vec<usize> = (0..monitor.states.len()).collect();
    let state_count = rows.len() as u16;
    let numbers = [state_count, 256, 257, 0x00ff, 0xff00, 32767, 65534];
    let no_states = numbers.into_iter().filter(|&number| number >= state_count);
    no_states.map(|number| written(monitor, &rows, &impossible, number).to_bytes()).collect()
}

/// The monitor with this successor for these events in these rows.
fn written(monitor: &Monitor, rows: &[usize], events: &[u8], successor: u16) -> Monitor {
    let mut monitor = monitor.clone();
    for &row in rows {
        for &event in events {
            monitor.states[row].successors[usize::from(event)] = successor;
        }
    }
    monitor
}

/// The table cut, or with bytes too many, whole rows among them.
fn wrong_sizes(monitor: &Monitor) -> Vec<Vec<u8>> {
    let table = monitor.to_bytes();
    let last_row = table.len() - row_length(monitor.signals);
    let cuts = [table.len() - 1, table.len() - 2, last_row, HEADER_LENGTH, HEADER_LENGTH - 1];
    let additions: [&[u8]; 4] = [&[0], &[255], &[0; 40], &table[last_row..]];
    let cut_tables = cuts.iter().map(|&length| table[..length].to_vec());
    let longer_tables = additions.iter().map(|addition| [&table[..], addition].concat());
    cut_tables.chain(longer_tables).collect()
}

/// Lists that are whole and consistent but outside the bounds of P or S, and
/// lists that have no rows at all.
pub fn out_of_bounds() -> Vec<Vec<u8>> {
    let mut tables = vec![
        Vec::new(),
        vec![0],
        vec![5, 0, 0, 2, 1, 1],
        vec![0; HEADER_LENGTH],
        vec![255; HEADER_LENGTH],
        well_sized(HEADER_KIND, &[1]),
        well_sized(HEADER_KIND, &[1, 1]),
    ];
    for signals in 0..=5 {
        tables.push(Monitor { signals, states: Vec::new() }.to_bytes());
    }
    for signals in 1..=4 {
        tables.push(chain(signals, 257, Verdict::Moot).to_bytes());
    }
    for state_count in 1..=3 {
        tables.push(resting(0, state_count).to_bytes());
        tables.push(resting(5, state_count).to_bytes());
    }
    // Rows for 4 signals under a header that says 5, and for 1 under one that says 0.
    tables.extend([patched(&resting(4, 2), 4, &[5]), patched(&resting(1, 2), 4, &[0])]);
    tables
}

/// A monitor that never leaves its start.
fn resting(signals: u8, state_count: usize) -> Monitor {
    let state = MonitorState { verdict: Verdict::Undecided, successors: vec![0; 1 << signals] };
    Monitor { signals, states: vec![state; state_count] }
}
