//! Numbers of openings, and several openings with states that are passed between them.

use oracle::rng::Rng;

use super::events::{self, Events};
use super::tables::Tables;
use super::Made;
use crate::case::{Case, Input, Passed};

/// Numbers at the ends, and about a byte's.
const NUMBERS: [u16; 8] = [0, 0, 1, 255, 256, 257, 65534, 65535];

/// The number of an opening.
pub fn number(rng: &mut Rng) -> u16 {
    match rng.chance(40) {
        true => *rng.pick(&NUMBERS),
        false => rng.below(65536) as u16,
    }
}

/// Another number than this one: a neighbour, one with a byte of it, or any.
pub fn other(rng: &mut Rng, number: u16) -> u16 {
    let any = rng.below(65536) as u16;
    let [low, high] = number.to_le_bytes();
    let [any_low, any_high] = any.to_le_bytes();
    let other = match rng.below(9) {
        0 => number.wrapping_sub(1),
        1 => number.wrapping_add(1),
        2 => u16::from_le_bytes([low, any_high]),
        3 => u16::from_le_bytes([any_low, high]),
        4 => number.swap_bytes(),
        5 => 0,
        6 => 65535,
        7 => number ^ 1 << rng.below(16),
        _ => any,
    };
    if other == number {
        return number.wrapping_add(1);
    }
    other
}

/// Mostly distinct numbers, neighbours among them; in one case of four the same for two tables or
/// more.
fn numbers(rng: &mut Rng, count: usize) -> Vec<u16> {
    let is_shared = rng.below(4) == 0;
    let mut all = vec![number(rng)];
    while all.len() < count {
        let one = *rng.pick(&all);
        let next = if is_shared && rng.chance(60) { one } else { other(rng, one) };
        if is_shared || !all.contains(&next) {
            all.push(next);
        }
    }
    all
}

/// Two to five openings, some of them of one table, and runs from starts and from what runs
/// returned.
pub fn case(tables: &Tables, rng: &mut Rng) -> Case {
    let count = rng.between(2, 5);
    let mut all: Vec<(Vec<u8>, u16)> = Vec::new();
    let mut origin = "";
    for number in numbers(rng, count) {
        let table = match all.is_empty() || rng.chance(80) {
            true => {
                let Made { origin: made, bytes } = tables.good(rng);
                origin = made;
                bytes
            }
            false => rng.pick(&all).0.clone(),
        };
        all.push((table, number));
    }
    let runs = (0..rng.between(10, 30)).map(|_| passed(rng, &all)).collect();
    Case { origin, input: Input::Openings { tables: all, runs } }
}

/// Short lists, now and then with an event that is none.
fn passed(rng: &mut Rng, tables: &[(Vec<u8>, u16)]) -> Passed {
    let by = rng.below(tables.len());
    let table = &tables[by].0;
    let all = Events::over(table[4], table);
    let count = *rng.pick(&[0, 1, 1, 1, 2, 3, 6]);
    let mut events: Vec<u8> = (0..count).map(|_| all.good(rng)).collect();
    if count > 0 && rng.below(12) == 0 {
        let place = rng.below(count);
        events[place] = all.bad(rng);
    }
    let from = match rng.chance(30) {
        true => by,
        false => events::number(rng) as usize,
    };
    Passed { by, from, events }
}
