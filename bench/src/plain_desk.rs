//! A desk in plain Rust: the same checks as tefuji_fresh, tefuji_post and tefuji_turn, written down as they are said.

use crate::tefuji::{Watch, DESK_MAX, QUEUE_MAX};

/// The most events of a tunnel, heard and waiting.
const EVENTS_MAX: u64 = u32::MAX as u64;

/// A refusal's number and place.
pub type Refused = (u8, usize);

/// What a turn heard: number, event, successor with the opening's number, and its verdict.
pub type Heard = (usize, u8, u32, u8);

/// A table's bytes with an opening in hand.
struct Table<'a> {
    number: u16,
    bytes: &'a [u8],
    events: usize,
    states: usize,
}

impl<'a> Table<'a> {
    fn new(bytes: &'a [u8], opened: u64) -> Result<Self, Refused> {
        let (signals, states) = (opened >> 32, (opened & 65535) as usize);
        if !(1..=4).contains(&signals) || !(1..=256).contains(&states) {
            return Err((14, 0));
        }
        let events = 1 << signals;
        match bytes.len() == 7 + states * (5 + 2 * events) {
            true => Ok(Table { number: (opened >> 16) as u16, bytes, events, states }),
            false => Err((14, 0)),
        }
    }

    fn row(&self, state: usize) -> &[u8] {
        &self.bytes[7 + state * (5 + 2 * self.events)..]
    }

    fn verdict(&self, state: usize) -> u8 {
        self.row(state)[4]
    }

    fn successor(&self, state: usize, event: u8) -> usize {
        let place = 5 + 2 * usize::from(event);
        u16::from_le_bytes([self.row(state)[place], self.row(state)[place + 1]]).into()
    }

    fn is_event(&self, event: u8) -> bool {
        usize::from(event) < self.events && self.successor(0, event) != 65535
    }

    fn fits(&self, watch: &Watch) -> bool {
        let waiting = usize::from(watch.waiting);
        usize::from(watch.state) < self.states
            && waiting <= QUEUE_MAX
            && events(watch) <= EVENTS_MAX
            && watch.events[..waiting].iter().all(|&event| self.is_event(event))
    }
}

/// Heard and waiting.
fn events(watch: &Watch) -> u64 {
    u64::from(watch.heard) + u64::from(watch.waiting)
}

fn judge_row(desk: &[Watch]) -> Result<(), Refused> {
    match desk.len() {
        1..=DESK_MAX => Ok(()),
        _ => Err((18, 0)),
    }
}

fn judge<'a>(desk: &[Watch], bytes: &'a [u8], opened: u64) -> Result<Table<'a>, Refused> {
    let table = Table::new(bytes, opened)?;
    judge_row(desk)?;
    if let Some(number) = desk.iter().position(|watch| watch.opening != table.number) {
        return Err((24, number));
    }
    match desk.iter().position(|watch| !table.fits(watch)) {
        Some(number) => Err((13, number)),
        None => Ok(table),
    }
}

pub fn fresh(desk: &mut [Watch], bytes: &[u8], opened: u64) -> Result<(), Refused> {
    let table = Table::new(bytes, opened)?;
    let start = table.verdict(0);
    if start > 3 {
        return Err((14, 0));
    }
    judge_row(desk)?;
    let filled = u16::from(start != 0);
    desk.fill(Watch { opening: table.number, filled, ..Watch::BLANK });
    Ok(())
}

pub fn post(
    desk: &mut [Watch],
    bytes: &[u8],
    opened: u64,
    number: usize,
    event: u8,
) -> Result<(), Refused> {
    let table = judge(desk, bytes, opened)?;
    let watch = desk.get_mut(number).ok_or((19, number))?;
    if !table.is_event(event) {
        return Err((12, number));
    }
    let events = events(watch);
    let slot = watch.events.get_mut(usize::from(watch.waiting)).ok_or((20, number))?;
    if events == EVENTS_MAX {
        return Err((21, number));
    }
    *slot = event;
    watch.waiting += 1;
    Ok(())
}

pub fn turn(
    desk: &mut [Watch],
    bytes: &[u8],
    opened: u64,
    last: usize,
) -> Result<Option<Heard>, Refused> {
    let table = judge(desk, bytes, opened)?;
    let last = last.min(desk.len() - 1);
    let mut order = (last + 1..desk.len()).chain(0..=last);
    let Some(number) = order.find(|&number| desk[number].waiting > 0) else {
        return Ok(None);
    };
    let watch = &mut desk[number];
    let (state, event) = (usize::from(watch.state), watch.events[0]);
    let successor = table.successor(state, event);
    if successor >= table.states || table.verdict(state) > 3 || table.verdict(successor) > 3 {
        return Err((14, 0));
    }
    let verdict = table.verdict(successor);
    watch.state = successor as u16;
    watch.waiting -= 1;
    watch.heard += 1;
    if watch.filled == 0 && verdict != 0 {
        (watch.filled, watch.first) = (1, watch.heard);
    }
    watch.events.copy_within(1.., 0);
    watch.events[QUEUE_MAX - 1] = 0;
    let state = u32::from(table.number) << 16 | successor as u32;
    Ok(Some((number, event, state, verdict)))
}
