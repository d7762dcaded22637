//! A desk, document 02's C-15, C-16 and C-18: a lent row of watches, one per tunnel, all over one
//! table, opened with a number that every watch carries.
//!
//! A tunnel's slots are a queue that is always as long as a watch has slots: what is heard leaves
//! in front and a 0 enters behind. Whose turn it is comes of the row turned round until it begins
//! behind the tunnel that was heard last. Whatever verdict comes to stand, that of the start or
//! that behind an event, is handed to the tunnel with what it has heard by then, and the tunnel
//! keeps the first that is not undecided.

use std::collections::VecDeque;

use crate::counted::{Counted, Halt};
use crate::mask;
use crate::openings::State;
use crate::refusal::Refusal;
use crate::table::{RunResult, Verdict};

/// The most tunnels of a desk.
pub const ROW_LIMIT: usize = 64;
/// The most events that wait for one tunnel, and the slots of a watch.
pub const QUEUE_LIMIT: usize = 32;
/// The most events, heard and waiting, of one tunnel.
pub const EVENT_LIMIT: u64 = 4_294_967_295;

/// One watch as it is lent. Its numbers may be any.
#[derive(Clone, Debug, PartialEq, Eq)]
pub struct Tunnel {
    pub state: u16,
    /// The number of the opening of which the state is.
    pub opening: u16,
    /// How many of the slots count.
    pub waiting: u16,
    /// Not 0 where `first` counts.
    pub filled: u16,
    pub heard: u32,
    /// How many events had been heard when a verdict other than undecided first stood.
    pub first: u32,
    pub slots: VecDeque<u8>,
}

/// Why a watch is none of a desk over a table.
#[derive(Clone, Copy, Debug, PartialEq, Eq)]
pub enum Fault {
    StateTooLarge,
    OverTheLimit,
    /// Those heard and those that wait are more than can be counted.
    TooManyEvents,
    /// A waiting byte is not below 2^P.
    NoEvent,
    ImpossibleEvent,
}

/// What a turn heard.
#[derive(Clone, Copy, Debug, PartialEq, Eq)]
pub struct Heard {
    pub number: usize,
    pub event: u8,
    pub state: State,
    pub verdict: Verdict,
}

/// What a call over a desk answers; only a turn hears something, if an event waits.
pub type Served = Result<Option<Heard>, Refusal>;

impl Tunnel {
    /// State 0 of an opening, in which this verdict stands; nothing waits and nothing was heard.
    pub fn fresh(opening: u16, start: Verdict) -> Self {
        let slots = VecDeque::from([0; QUEUE_LIMIT]);
        let (state, waiting, filled, heard, first) = (0, 0, 0, 0, 0);
        let mut tunnel = Tunnel { state, opening, waiting, filled, heard, first, slots };
        tunnel.remember(start);
        tunnel
    }

    /// Where the tunnel stands.
    pub fn stands(&self) -> State {
        State { opening: self.opening, number: self.state }
    }

    /// The count of heard events at which a verdict first stood, if one did.
    pub fn first_verdict(&self) -> Option<u32> {
        (self.filled != 0).then_some(self.first)
    }

    /// The events heard and those that wait.
    pub fn total(&self) -> u64 {
        u64::from(self.heard) + u64::from(self.waiting)
    }

    /// The events that wait, oldest first. Of more than the slots, those in the slots.
    pub fn queue(&self) -> impl Iterator<Item = u8> + '_ {
        self.slots.iter().take(self.waiting.into()).copied()
    }

    /// The bytes past the queue, which are free.
    pub fn free(&self) -> impl Iterator<Item = u8> + '_ {
        self.slots.iter().skip(self.waiting.into()).copied()
    }

    /// All that makes the watch wrong, each once.
    pub fn faults(&self, table: &Counted) -> Vec<Fault> {
        let is_event = |event: u8| event < 1 << table.signals;
        let is_impossible = |event: u8| is_event(event) && !mask::has(table.possible, event);
        let all = [
            (self.state >= table.states, Fault::StateTooLarge),
            (usize::from(self.waiting) > QUEUE_LIMIT, Fault::OverTheLimit),
            (self.total() > EVENT_LIMIT, Fault::TooManyEvents),
            (!self.queue().all(is_event), Fault::NoEvent),
            (self.queue().any(is_impossible), Fault::ImpossibleEvent),
        ];
        all.into_iter().filter(|(is_so, _)| *is_so).map(|(_, fault)| fault).collect()
    }

    fn push(&mut self, event: u8) {
        self.slots[usize::from(self.waiting)] = event;
        self.waiting += 1;
    }

    /// The oldest event is heard, and leads to this end.
    fn hear(&mut self, end: RunResult) {
        self.slots.pop_front();
        self.slots.push_back(0);
        self.waiting -= 1;
        self.heard += 1;
        self.state = end.end_state;
        self.remember(end.verdict);
    }

    /// This verdict stands after what was heard.
    fn remember(&mut self, verdict: Verdict) {
        if verdict != Verdict::Undecided && self.first_verdict().is_none() {
            (self.filled, self.first) = (1, self.heard);
        }
    }
}

/// 18 for a row that is empty or above the limit.
fn judge_row(desk: &[Tunnel]) -> Result<(), Refusal> {
    match desk.len() {
        1..=ROW_LIMIT => Ok(()),
        _ => Err(Refusal::new(18, 0)),
    }
}

/// 14 for an opening that does not fit the bytes, then 18, then 24 at the first watch of another
/// opening, all watches of the row before any is judged by 13, at the first wrong one.
fn judge<'a>(desk: &[Tunnel], bytes: &'a [u8], opened: u64) -> Result<Counted<'a>, Refusal> {
    let table = Counted::new(bytes, opened).ok_or(Refusal::new(14, 0))?;
    judge_row(desk)?;
    let refuse_first = |by: u8, is_refused: &dyn Fn(&Tunnel) -> bool| {
        let first = desk.iter().position(is_refused);
        first.map_or(Ok(()), |number| Err(Refusal::new(by, number)))
    };
    refuse_first(24, &|tunnel| tunnel.opening != table.number)?;
    refuse_first(13, &|tunnel| !tunnel.faults(&table).is_empty())?;
    Ok(table)
}

/// Every watch in state 0 of the opening, with nothing waiting and nothing heard. Order 14, also for
/// the start's verdict, 18.
pub fn fresh(desk: &mut [Tunnel], (bytes, opened): (&[u8], u64)) -> Result<(), Refusal> {
    let start =
        Counted::new(bytes, opened).and_then(|table| Some((table.number, table.verdict(0)?)));
    let (number, verdict) = start.ok_or(Refusal::new(14, 0))?;
    judge_row(desk)?;
    desk.fill(Tunnel::fresh(number, verdict));
    Ok(())
}

/// Adds an event to a tunnel. Order 14, 18, 24, 13, 19, 12, 20, 21.
pub fn post(
    desk: &mut [Tunnel],
    (bytes, opened): (&[u8], u64),
    number: usize,
    event: u8,
) -> Result<(), Refusal> {
    let table = judge(desk, bytes, opened)?;
    let refused = |by: u8| Err(Refusal::new(by, number));
    match desk.get_mut(number) {
        None => refused(19),
        Some(_) if !mask::has(table.possible, event) => refused(12),
        Some(tunnel) if usize::from(tunnel.waiting) == QUEUE_LIMIT => refused(20),
        Some(tunnel) if tunnel.total() == EVENT_LIMIT => refused(21),
        Some(tunnel) => {
            tunnel.push(event);
            Ok(())
        }
    }
}

/// The numbers of a row in the order in which a turn looks at them: the one behind the last
/// heard first, and that one itself at the end. A number outside the row is the last one's.
pub fn order(row: usize, last: usize) -> VecDeque<usize> {
    let mut numbers: VecDeque<usize> = (0..row).collect();
    if numbers.contains(&last) {
        while numbers.back() != Some(&last) {
            numbers.rotate_left(1);
        }
    }
    numbers
}

/// Hears the oldest event of the next tunnel that has one waiting, if any has. Order 14, 18, 24, 13;
/// then 14 for what is read of the table.
pub fn turn(desk: &mut [Tunnel], (bytes, opened): (&[u8], u64), last: usize) -> Served {
    let table = judge(desk, bytes, opened)?;
    let next = order(desk.len(), last).into_iter().find(|&number| desk[number].waiting > 0);
    let Some(number) = next else {
        return Ok(None);
    };
    let tunnel = &mut desk[number];
    let event = tunnel.slots[0];
    let end = table.step(tunnel.state, event).map_err(Halt::refusal)?;
    tunnel.hear(end);
    let state = State { opening: table.number, number: end.end_state };
    Ok(Some(Heard { number, event, state, verdict: end.verdict }))
}

#[cfg(test)]
mod tests;
