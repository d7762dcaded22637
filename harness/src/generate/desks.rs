//! Desks and the calls over them: any watches, some of them wrong, over a table that may have
//! changed since it was opened; and histories from a fresh desk over a good one.

use oracle::counted;
use oracle::desk::{Tunnel, QUEUE_LIMIT};
use oracle::rng::Rng;
use oracle::table::{row_length, HEADER_LENGTH, NO_SUCCESSOR};

use super::events::{self, Events};
use super::openings;
use super::tables::Tables;
use super::Made;
use crate::case::{Call, Case, Input, Move};

/// Rows that are refused, one of them so that its length in one byte would not be.
const WRONG_ROWS: [usize; 6] = [0, 0, 65, 65, 66, 257];
/// Rows of which every number is asked for sooner or later, and those at the limit.
const ROWS: [usize; 9] = [1, 2, 3, 5, 31, 63, 64, 64, 64];
/// What may say that a verdict is remembered; all but 0 do, also where the low byte is 0.
const FILLED: [u16; 13] = [0, 0, 0, 0, 0, 1, 1, 1, 2, 7, 256, 1 << 12, 1 << 15];

/// Bytes that stand where a verdict should.
const NO_VERDICTS: [u8; 4] = [4, 5, 128, 255];

/// A table, what opening it with a number answered, and what that says.
struct Held {
    origin: &'static str,
    table: Vec<u8>,
    number: u16,
    opened: u64,
    states: u16,
    events: Events,
}

impl Held {
    fn new(Made { origin, bytes: table }: Made, number: u16) -> Self {
        let (signals, states) = (table[4], u16::from_le_bytes([table[5], table[6]]));
        let opened = counted::opened(signals, number, states.into());
        let events = Events::over(signals, &table);
        Held { origin, table, number, opened, states, events }
    }

    /// One in five has other bytes by now.
    fn perhaps_changed(mut self, rng: &mut Rng) -> Self {
        if rng.below(5) == 0 {
            change_rows(rng, &mut self.table, self.states);
            self.events = Events::over(self.table[4], &self.table);
            self.origin = "changed";
        }
        self
    }

    /// The table's opening, or others, once in so many; now and then with another number.
    fn opened(&self, rng: &mut Rng, others: usize) -> u64 {
        let number = match rng.below(30) {
            0 => openings::other(rng, self.number),
            _ => self.number,
        };
        match rng.below(others) {
            0 => events::stray_opened(rng, &self.table, number),
            _ => counted::opened((self.opened >> 32) as u8, number, self.states.into()),
        }
    }

    /// Mostly one that can happen.
    fn event(&self, rng: &mut Rng) -> u8 {
        if rng.chance(85) {
            self.events.good(rng)
        } else {
            self.events.bad(rng)
        }
    }

    /// A watch of a desk, with so many events waiting and any bytes, or none, in the free slots;
    /// of the events heard and the first verdict it remembers anything.
    fn tunnel(&self, rng: &mut Rng, waiting: usize, has_noise: bool) -> Tunnel {
        let state = rng.below(self.states.into()) as u16;
        let mut slot = |place: usize| match place < waiting {
            true => self.events.good(rng),
            false if has_noise => rng.byte_below(256),
            false => 0,
        };
        let slots = (0..QUEUE_LIMIT).map(&mut slot).collect();
        let heard = heard(rng, waiting as u32);
        let (filled, first) = (*rng.pick(&FILLED), first(rng, heard));
        let (opening, waiting) = (self.number, waiting as u16);
        Tunnel { state, opening, waiting, filled, heard, first, slots }
    }

    fn desk(&self, rng: &mut Rng, row: usize) -> Vec<Tunnel> {
        let filling = rng.pick(&Filling::EACH);
        let has_noise = rng.chance(60);
        let mut tunnel = |_| {
            let waiting = filling.waiting(rng);
            self.tunnel(rng, waiting, has_noise)
        };
        (0..row).map(&mut tunnel).collect()
    }

    /// Makes one watch wrong, or writes what would be wrong among the waiting into its free slots.
    fn spoil(&self, rng: &mut Rng, tunnel: &mut Tunnel) {
        let bad = self.events.bad(rng);
        match rng.below(10) {
            0..=1 => tunnel.state = *rng.pick(&[self.states, self.states + 1, 256, 65535]),
            2..=3 => tunnel.waiting = *rng.pick(&[33, 34, 256, 32768, 65535]),
            4..=6 => {
                let waiting = usize::from(tunnel.waiting).clamp(1, QUEUE_LIMIT);
                let any = rng.below(waiting);
                tunnel.waiting = waiting as u16;
                tunnel.slots[*rng.pick(&[0, waiting - 1, any])] = bad;
            }
            7 => {
                let waiting = usize::from(tunnel.waiting).min(QUEUE_LIMIT);
                tunnel.slots.iter_mut().skip(waiting).for_each(|slot| *slot = bad);
            }
            _ => self.make_old(rng, tunnel),
        }
    }

    /// Makes the events heard too many beside those that wait, by one or more.
    fn make_old(&self, rng: &mut Rng, tunnel: &mut Tunnel) {
        let were_waiting = usize::from(tunnel.waiting).min(QUEUE_LIMIT);
        let waiting = *rng.pick(&[were_waiting.max(1), 1, QUEUE_LIMIT, QUEUE_LIMIT, QUEUE_LIMIT]);
        for slot in tunnel.slots.iter_mut().take(waiting).skip(were_waiting) {
            *slot = self.events.good(rng);
        }
        tunnel.waiting = waiting as u16;
        let any = rng.below(waiting);
        let more = *rng.pick(&[0, waiting - 1, waiting.saturating_sub(2), any]);
        tunnel.heard = u32::MAX - (waiting - 1 - more) as u32;
    }

    fn call(&self, rng: &mut Rng, row: usize) -> Call {
        let call = rng.below(20);
        if call < 3 {
            return Call::Fresh { opened: self.opened(rng, 4) };
        }
        let opened = self.opened(rng, 8);
        match call {
            3..=12 => Call::Post { opened, number: number(rng, row), event: self.event(rng) },
            _ => Call::Turn { opened, last: number(rng, row) },
        }
    }
}

/// How many events wait for the tunnels of a desk.
#[derive(Clone, Copy)]
enum Filling {
    Nothing,
    AtMost1,
    Few,
    Any,
    About32,
    All,
}

impl Filling {
    const EACH: [Filling; 6] = [
        Filling::Nothing,
        Filling::AtMost1,
        Filling::Few,
        Filling::Any,
        Filling::About32,
        Filling::All,
    ];

    fn waiting(self, rng: &mut Rng) -> usize {
        match self {
            Filling::Nothing => 0,
            Filling::AtMost1 => rng.between(0, 1),
            Filling::Few if rng.chance(90) => 0,
            Filling::Few => rng.between(1, 3),
            Filling::Any => rng.between(0, QUEUE_LIMIT),
            Filling::About32 => rng.between(QUEUE_LIMIT - 1, QUEUE_LIMIT),
            Filling::All => QUEUE_LIMIT,
        }
    }
}

/// How many events a tunnel has heard for which so many wait: none, few, any number, with those
/// about 2^16 or 2^31, or about as many as can be counted, which is never passed.
fn heard(rng: &mut Rng, waiting: u32) -> u32 {
    let most = u32::MAX - waiting;
    match rng.below(10) {
        0..=1 => 0,
        2..=3 => rng.below(40) as u32,
        4 => most.min(rng.below(1 << 32) as u32),
        5 => *rng.pick(&[1 << 16, 1 << 31]) - waiting - rng.below(3) as u32,
        6..=7 => most - rng.below(4) as u32,
        _ => most,
    }
}

/// The event with which a verdict came, or what may stand there otherwise.
fn first(rng: &mut Rng, heard: u32) -> u32 {
    match rng.below(6) {
        0 => 0,
        1 => heard,
        2 => heard.saturating_add(1),
        3 => heard.saturating_sub(1),
        4 => u32::MAX,
        _ => rng.below(1 << 32) as u32,
    }
}

/// Any watches, wrong or not, one call after the other.
pub fn case(tables: &Tables, rng: &mut Rng) -> Case {
    let (made, own) = (tables.good(rng), openings::number(rng));
    let held = Held::new(made, own).perhaps_changed(rng);
    let row = if rng.below(8) == 0 { *rng.pick(&WRONG_ROWS) } else { good_row(rng) };
    let mut desk = held.desk(rng, row);
    if row > 0 && rng.chance(40) {
        for _ in 0..rng.between(1, 3) {
            let any = rng.below(row);
            let number = *rng.pick(&[0, row - 1, any, any]);
            held.spoil(rng, &mut desk[number]);
        }
    }
    if row > 0 && rng.chance(20) {
        hand_over(rng, &mut desk, own);
    }
    let calls = (0..rng.between(2, 7)).map(|_| held.call(rng, row)).collect();
    Case { origin: held.origin, input: Input::Desk { table: held.table, desk, calls } }
}

/// Gives some watches to openings with other numbers, or all to one.
fn hand_over(rng: &mut Rng, desk: &mut [Tunnel], own: u16) {
    if rng.below(6) == 0 {
        let other = openings::other(rng, own);
        desk.iter_mut().for_each(|tunnel| tunnel.opening = other);
    }
    for _ in 0..rng.between(1, 2) {
        let any = rng.below(desk.len());
        let number = *rng.pick(&[0, desk.len() - 1, any]);
        desk[number].opening = openings::other(rng, own);
    }
}

/// From a fresh desk, whatever stood there before.
pub fn history(tables: &Tables, rng: &mut Rng) -> Case {
    let (made, own) = (tables.good(rng), openings::number(rng));
    let held = Held::new(made, own);
    let row = good_row(rng);
    let mut desk = held.desk(rng, row);
    desk.iter_mut().for_each(|tunnel| held.spoil(rng, tunnel));
    desk.iter_mut().for_each(|tunnel| tunnel.opening = openings::number(rng));
    let last = number(rng, row);
    let moves = if rng.chance(40) { crowded(&held, rng, row) } else { moves(&held, rng, row) };
    let (origin, table) = (held.origin, held.table);
    Case { origin, input: Input::History { table, number: own, desk, last, moves } }
}

/// Posts, most of them to a few tunnels, and turns, in any order; now and then with another opening.
fn moves(held: &Held, rng: &mut Rng, row: usize) -> Vec<Move> {
    let posts = *rng.pick(&[30, 50, 70, 95]);
    let busy = rng.between(1, row);
    let mut next = |_| {
        if rng.below(60) == 0 {
            let number = openings::other(rng, held.number);
            return Move::Foreign { number, event: held.event(rng) };
        }
        if !rng.chance(posts) {
            return Move::Turn;
        }
        let number = if rng.chance(80) { rng.below(busy) } else { number(rng, row) };
        Move::Post { number, event: held.event(rng) }
    };
    (0..150).map(&mut next).collect()
}

/// An event for each tunnel; then whoever was heard posts again.
fn crowded(held: &Held, rng: &mut Rng, row: usize) -> Vec<Move> {
    let mut all: Vec<Move> =
        (0..row).map(|number| Move::Post { number, event: held.events.good(rng) }).collect();
    for _ in 0..row + rng.between(1, 10) {
        all.extend([Move::Turn, Move::Again { event: held.event(rng) }]);
    }
    all
}

fn good_row(rng: &mut Rng) -> usize {
    if rng.chance(50) {
        *rng.pick(&ROWS)
    } else {
        rng.between(1, 64)
    }
}

/// Mostly a number of the row; now and then its last, one past it, or one that would be of the row
/// if only its low bytes were read.
fn number(rng: &mut Rng, row: usize) -> usize {
    let inside = rng.below(row.max(1));
    match rng.below(16) {
        0 => row.wrapping_sub(1),
        1 => row,
        2 => *rng.pick(&[row + 1, 64, 65, usize::MAX, usize::MAX, (1 << 56) - 1, 1 << 56]),
        3 => inside + *rng.pick(&[1 << 8, 1 << 16, 1 << 32, 1 << 56]),
        _ => inside,
    }
}

/// Writes what no table has into some of its rows, often into the first: verdict bytes above 3,
/// successors that are no state, or missing ones.
pub fn change_rows(rng: &mut Rng, table: &mut [u8], states: u16) {
    let share = *rng.pick(&[3, 20, 60]);
    let no_states = [states, states + 1, 256, 65534, NO_SUCCESSOR];
    let row_length = row_length(table[4]);
    if rng.chance(60) {
        table[HEADER_LENGTH + 4] = *rng.pick(&NO_VERDICTS);
    }
    for row in table[HEADER_LENGTH..].chunks_exact_mut(row_length) {
        if rng.chance(share) {
            row[4] = *rng.pick(&NO_VERDICTS);
        }
        for successor in row[5..].chunks_exact_mut(2) {
            if rng.chance(share) {
                successor.copy_from_slice(&rng.pick(&no_states).to_le_bytes());
            }
        }
    }
}
