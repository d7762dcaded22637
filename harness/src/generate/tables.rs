//! Tables, good and spoilt.

use oracle::builder;
use oracle::mask::Mask;
use oracle::random_masks::{any_mask, Leaving};
use oracle::rng::Rng;
use oracle::table::{row_length, Monitor, Verdict, HEADER_LENGTH, NO_SUCCESSOR};
use oracle::vectors::{table_faults, table_samples as samples};

use super::{rules, spoil, Made};
use crate::tefuji::TABLE_MAX;

/// The most states of a small table.
const FEW_STATES: usize = 12;

pub struct Tables {
    known: Vec<Vec<u8>>,
    faulty: Vec<Vec<u8>>,
}

impl Tables {
    pub fn new(rng: &mut Rng) -> Self {
        let mut faulty = table_faults::out_of_bounds();
        for signals in 1..=4 {
            for _ in 0..4 {
                let states = rng.between(1, FEW_STATES);
                let monitor = samples::random_monitor(rng, signals, states, 70);
                faulty.extend(table_faults::spoilt_tables(&monitor));
                let masked = samples::masked(rng, monitor);
                faulty.extend(table_faults::missing_successors(&masked));
                faulty.extend(table_faults::wrong_numbers(&masked));
            }
        }
        let known = [samples::document_monitors(), vec![samples::p12_apart()]].concat();
        Tables { known: known.iter().map(Monitor::to_bytes).collect(), faulty }
    }

    /// The table of a rule, or any of the right form: its states need not be in order, reachable
    /// or different. Of those of no rule one in three has events that cannot happen.
    pub fn good(&self, rng: &mut Rng) -> Made {
        match rng.below(100) {
            0..=4 => Made::new("known", rng.pick(&self.known).clone()),
            5..=29 => self.built(rng),
            30..=39 => Made::new("chain", chain(rng)),
            40..=95 => {
                let monitor = samples::random_small_monitor(rng, FEW_STATES);
                Made::new("random", perhaps_masked(rng, monitor))
            }
            _ => Made::new("large", large(rng)),
        }
    }

    /// Bytes most of which are no table.
    pub fn spoilt(&self, rng: &mut Rng) -> Made {
        let way = rng.below(100);
        if way < 30 {
            return Made::new("fault", rng.pick(&self.faulty).clone());
        }
        if way < 34 {
            return Made::new("noise", noise(rng));
        }
        let mut table = self.good(rng).bytes;
        match way {
            34..=59 => change_field(rng, &mut table),
            60..=69 => change_column(rng, &mut table),
            70..=96 => spoil::in_place(rng, &mut table),
            _ => lengthen(rng, &mut table),
        }
        Made::new("changed", table)
    }

    /// The table of a rule.
    fn built(&self, rng: &mut Rng) -> Made {
        let mut table = vec![0; TABLE_MAX];
        let rule = rules::quick(rng).bytes;
        let Ok(length) = builder::build(&rule, &mut table) else {
            return Made::new("known", rng.pick(&self.known).clone());
        };
        table.truncate(length);
        Made::new("built", table)
    }
}

/// Only the last state shows a verdict, and event 0 leaves every state alone.
pub fn chain(rng: &mut Rng) -> Vec<u8> {
    let signals = 1 + rng.byte_below(4);
    let states = if rng.below(40) == 0 { 256 } else { rng.between(1, 20) };
    let chain = samples::chain(signals, states as u16, *rng.pick(&Verdict::DECIDED));
    perhaps_masked(rng, chain)
}

fn large(rng: &mut Rng) -> Vec<u8> {
    let signals = 1 + rng.byte_below(4);
    let states = if rng.chance(30) { 256 } else { rng.between(13, 256) };
    let monitor = samples::random_monitor(rng, signals, states, 97);
    match rng.below(10) {
        // With one event left of sixteen the text is the longest.
        0 => {
            let longest = samples::random_monitor(rng, 4, 256, 100);
            samples::leaving(longest, Leaving::One.draw(rng, 4)).to_bytes()
        }
        _ => perhaps_masked(rng, monitor),
    }
}

/// The table, one in three with only the events of a mask.
pub fn perhaps_masked(rng: &mut Rng, monitor: Monitor) -> Vec<u8> {
    let mask = if rng.below(3) == 0 { any_mask(rng, monitor.signals) } else { Mask::MAX };
    samples::leaving(monitor, mask).to_bytes()
}

/// Writes or takes away the successors of one event, in all rows of a good table or in some.
fn change_column(rng: &mut Rng, table: &mut [u8]) {
    let (signals, states) = (table[4], u16::from_le_bytes([table[5], table[6]]));
    let event = rng.below(1 << signals);
    let any = rng.below(states.into()) as u16;
    let value = *rng.pick(&[NO_SUCCESSOR, NO_SUCCESSOR, 0, any, 65534]);
    let rows = *rng.pick(&[100, 90, 50, 10]);
    for row in table[HEADER_LENGTH..].chunks_exact_mut(row_length(signals)) {
        if rng.chance(rows) {
            row[5 + 2 * event..7 + 2 * event].copy_from_slice(&value.to_le_bytes());
        }
    }
}

/// Changes one number of two bytes, or one byte, of a good table to a likely value.
fn change_field(rng: &mut Rng, table: &mut [u8]) {
    let (signals, states) = (table[4], u16::from_le_bytes([table[5], table[6]]));
    let row = HEADER_LENGTH + rng.below(states.into()) * row_length(signals);
    let successor = row + 5 + 2 * rng.below(1 << signals);
    let place = *rng.pick(&[0, 2, 4, 5, row, row + 2, row + 4, successor, successor, successor]);
    if place == 4 || place == row + 4 {
        table[place] = rng.byte_below(7);
        return;
    }
    let was = u16::from_le_bytes([table[place], table[place + 1]]);
    let near = [was.wrapping_add(1), was.wrapping_sub(1), was ^ 256];
    let bounds = [states, states - 1, states + 1, 0, 256, 257, 65535];
    let value = if rng.chance(30) { *rng.pick(&near) } else { *rng.pick(&bounds) };
    table[place..place + 2].copy_from_slice(&value.to_le_bytes());
}

/// Adds a few bytes or a whole row to a good table.
fn lengthen(rng: &mut Rng, table: &mut Vec<u8>) {
    let row = table.len() - row_length(table[4]);
    let more = match rng.below(3) {
        0 => table[row..].to_vec(),
        1 => vec![0; rng.between(1, 4)],
        _ => rng.bytes(20),
    };
    table.extend(more);
}

/// Any bytes, alone or after a good header; often none.
fn noise(rng: &mut Rng) -> Vec<u8> {
    let count = rng.below(60);
    match rng.below(3) {
        0 => Vec::new(),
        1 => rng.bytes(count),
        _ => {
            let header = [5, 0, 0, 2, 1 + rng.byte_below(4), rng.byte_below(4), 0];
            [&header[..], &rng.bytes(count)].concat()
        }
    }
}
