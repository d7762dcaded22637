//! A safe wrapper over libtefuji.a: copy this file into a program and link the library.
//! The declarations below are those of include/tefuji.h. Nothing checks them against the library; the harness compares its answers with a
//! second implementation.
#![allow(dead_code)]

use std::fmt;

/// The functions as the library has them. The rest of this file is all that a program needs.
pub mod library {
    use super::Watch;

    extern "C" {
        pub fn tefuji_write(
            text: *const u8,
            text_length: usize,
            signals: u8,
            rule: *mut u8,
            rule_length: usize,
        ) -> u64;
        pub fn tefuji_build(
            rule: *const u8,
            rule_length: usize,
            table: *mut u8,
            table_length: usize,
        ) -> u64;
        pub fn tefuji_open(table: *const u8, table_length: usize, number: u16) -> u64;
        pub fn tefuji_start(opened: u64) -> u32;
        pub fn tefuji_run(
            table: *const u8,
            table_length: usize,
            opened: u64,
            state: u32,
            events: *const u8,
            events_length: usize,
            count: *mut u64,
        ) -> u64;
        pub fn tefuji_step(
            table: *const u8,
            table_length: usize,
            opened: u64,
            state: u32,
            event: u8,
        ) -> u64;
        pub fn tefuji_text(
            table: *const u8,
            table_length: usize,
            text: *mut u8,
            text_length: usize,
        ) -> u64;
        pub fn tefuji_fresh(
            desk: *mut Watch,
            watches: usize,
            table: *const u8,
            table_length: usize,
            opened: u64,
        ) -> u64;
        pub fn tefuji_post(
            desk: *mut Watch,
            watches: usize,
            table: *const u8,
            table_length: usize,
            opened: u64,
            number: usize,
            event: u8,
        ) -> u64;
        pub fn tefuji_turn(
            desk: *mut Watch,
            watches: usize,
            table: *const u8,
            table_length: usize,
            opened: u64,
            last: usize,
        ) -> u64;
        pub fn tefuji_judge(
            table: *const u8,
            table_length: usize,
            opened: u64,
            first: *const u8,
            first_length: usize,
            second: *const u8,
            second_length: usize,
        ) -> u64;
    }
}

/// The longest rule file in bytes that `write` writes.
pub const RULE_MAX: usize = 357;

/// The largest table in bytes.
pub const TABLE_MAX: usize = 9479;

/// The bytes that `text` needs.
pub const TEXT_ROOM: usize = 32768;

/// The most watches of a desk.
pub const DESK_MAX: usize = 64;

/// The most events that wait for one tunnel.
pub const QUEUE_MAX: usize = 32;

/// A refusal: its number, 1 to 24, and its place. What was lent keeps every byte.
#[derive(Clone, Copy, Debug, PartialEq, Eq)]
pub struct Refusal {
    pub number: u8,
    pub place: u64,
}

impl fmt::Display for Refusal {
    fn fmt(&self, out: &mut fmt::Formatter<'_>) -> fmt::Result {
        write!(out, "refused {} at {}", self.number, self.place)
    }
}

impl std::error::Error for Refusal {}

#[derive(Clone, Copy, Debug, PartialEq, Eq)]
pub enum Verdict {
    Undecided,
    Satisfied,
    Violated,
    Moot,
}

impl fmt::Display for Verdict {
    fn fmt(&self, out: &mut fmt::Formatter<'_>) -> fmt::Result {
        out.write_str(match self {
            Verdict::Undecided => "undecided",
            Verdict::Satisfied => "satisfied",
            Verdict::Violated => "violated",
            Verdict::Moot => "moot",
        })
    }
}

/// A state of a table, with the number of the opening of which it is. An opening with another number refuses it by 24. It may be stored as the 32 bits that
/// it is, and be read again later; any 32 bits are a state.
#[derive(Clone, Copy, Debug, PartialEq, Eq, PartialOrd, Ord, Hash)]
pub struct State(u32);

impl State {
    pub const fn from_bits(bits: u32) -> Self {
        State(bits)
    }

    pub const fn to_bits(self) -> u32 {
        self.0
    }

    /// The number of the opening.
    pub const fn opening(self) -> u16 {
        (self.0 >> 16) as u16
    }

    /// The state's own number, by which the table's rows are counted.
    pub const fn number(self) -> u16 {
        self.0 as u16
    }
}

/// The state's own number.
impl fmt::Display for State {
    fn fmt(&self, out: &mut fmt::Formatter<'_>) -> fmt::Result {
        self.number().fmt(out)
    }
}

/// Where an event or a list of events leads.
#[derive(Clone, Copy, Debug, PartialEq, Eq)]
pub struct Reached {
    pub state: State,
    pub verdict: Verdict,
}

/// Where a run ends, and how many events had been read when a verdict other than undecided was first shown.
#[derive(Clone, Copy, Debug, PartialEq, Eq)]
pub struct Ended {
    pub reached: Reached,
    pub count: Option<u64>,
}

/// The watch of one tunnel: the state in which the table stands for it and the number of its opening, how many events wait, what it remembers, and the
/// slots, the oldest event first. The first `waiting` slots count; the others are free. A desk is a row of watches, and a tunnel's number the index of its
/// watch. Any values are a watch.
#[repr(C)]
#[derive(Clone, Copy, Debug, PartialEq, Eq)]
pub struct Watch {
    /// The state's own number. `state()` gives it with the opening's.
    pub state: u16,
    /// The number of the opening. Openings with another refuse the watch by 24.
    pub opening: u16,
    pub waiting: u16,
    /// Not 0 where `first` counts. `first_verdict` reads both.
    pub filled: u16,
    /// How many events were heard.
    pub heard: u32,
    pub first: u32,
    pub events: [u8; QUEUE_MAX],
}

/// The watch of include/tefuji.h has as many bytes, none of them between or behind its members.
const _: () = assert!(size_of::<Watch>() == 16 + QUEUE_MAX && align_of::<Watch>() == 4);

impl Watch {
    /// Each byte 0: a row of these is what `Opened::fresh` makes a desk of. It is a fresh watch itself only for an opening with the number 0, where the
    /// start's verdict is undecided.
    pub const BLANK: Watch = Watch {
        state: 0,
        opening: 0,
        waiting: 0,
        filled: 0,
        heard: 0,
        first: 0,
        events: [0; QUEUE_MAX],
    };

    /// The state in which the table stands for the tunnel, as a step with the desk's opening takes it.
    pub fn state(&self) -> State {
        State((self.opening as u32) << 16 | self.state as u32)
    }

    /// At which of the tunnel's heard events, counted from 1, a verdict other than undecided first stood; 0 before the first, none if not yet.
    pub fn first_verdict(&self) -> Option<u32> {
        (self.filled != 0).then_some(self.first)
    }
}

/// What a turn heard: the tunnel's number, which the next turn takes, its event, and where that led.
#[derive(Clone, Copy, Debug, PartialEq, Eq)]
pub struct Heard {
    pub number: usize,
    pub event: u8,
    pub reached: Reached,
}

fn answered(answer: u64) -> Result<u64, Refusal> {
    match (answer >> 56) as u8 {
        0 => Ok(answer),
        number => Err(Refusal { number, place: answer & ((1 << 56) - 1) }),
    }
}

fn verdict(answer: u64) -> Verdict {
    match (answer >> 32) as u8 {
        0 => Verdict::Undecided,
        1 => Verdict::Satisfied,
        2 => Verdict::Violated,
        _ => Verdict::Moot,
    }
}

fn reached(answer: u64) -> Reached {
    Reached { state: State(answer as u32), verdict: verdict(answer) }
}

/// Nothing where a turn's answer says that none waits.
fn heard(answer: u64) -> Option<Heard> {
    let number = (answer >> 48) as usize & 127;
    let heard = Heard { number, event: (answer >> 40) as u8, reached: reached(answer) };
    (answer >> 55 == 1).then_some(heard)
}

/// Reads a rule text over so many signals, writes its rule file into the front of `rule`, and returns the file's length.
pub fn write(text: &[u8], signals: u8, rule: &mut [u8]) -> Result<usize, Refusal> {
    // Both slices are good for their lengths during the call, and a `&mut` overlaps nothing.
    let answer = unsafe {
        library::tefuji_write(text.as_ptr(), text.len(), signals, rule.as_mut_ptr(), rule.len())
    };
    answered(answer).map(|length| length as usize)
}

/// Builds the smallest table of a rule file into the front of `table` and returns its length.
pub fn build(rule: &[u8], table: &mut [u8]) -> Result<usize, Refusal> {
    // Both slices are good for their lengths during the call, and a `&mut` overlaps nothing.
    let answer = unsafe {
        library::tefuji_build(rule.as_ptr(), rule.len(), table.as_mut_ptr(), table.len())
    };
    answered(answer).map(|length| length as usize)
}

/// Writes a table as text into the front of `text`, which has at least `TEXT_ROOM` bytes, and returns the length.
pub fn text(table: &[u8], text: &mut [u8]) -> Result<usize, Refusal> {
    // Both slices are good for their lengths during the call, and a `&mut` overlaps nothing.
    let answer =
        unsafe { library::tefuji_text(table.as_ptr(), table.len(), text.as_mut_ptr(), text.len()) };
    answered(answer).map(|length| length as usize)
}

/// A table opened once, with a number of the program's choice, and run many times. Only `open` makes one, so the counts are always those of the bytes.
/// States and watches carry the number; give each table one of its own. With two openings of the same number states of the one are taken by the other, and
/// what is answered goes by the table at hand.
#[derive(Clone, Copy, Debug)]
pub struct Opened<'a> {
    bytes: &'a [u8],
    opened: u64,
}

impl<'a> Opened<'a> {
    pub fn open(bytes: &'a [u8], number: u16) -> Result<Self, Refusal> {
        // The slice is lent for the call.
        let answer = unsafe { library::tefuji_open(bytes.as_ptr(), bytes.len(), number) };
        answered(answer).map(|opened| Opened { bytes, opened })
    }

    pub fn signals(self) -> u8 {
        (self.opened >> 32) as u8
    }

    pub fn number(self) -> u16 {
        (self.opened >> 16) as u16
    }

    pub fn states(self) -> u16 {
        self.opened as u16
    }

    /// The state in which every list of events begins.
    pub fn start(self) -> State {
        // The function takes any number.
        State(unsafe { library::tefuji_start(self.opened) })
    }

    /// Runs the table from a state over a list of events. A state of an opening with another number is refused by 24, one that the table has not by 13, and
    /// the first event that is none or cannot happen by 12.
    pub fn run(self, state: State, events: &[u8]) -> Result<Ended, Refusal> {
        let mut count = 0;
        // All three are lent for the call.
        let answer = unsafe {
            library::tefuji_run(
                self.bytes.as_ptr(),
                self.bytes.len(),
                self.opened,
                state.0,
                events.as_ptr(),
                events.len(),
                &mut count,
            )
        };
        let reached = answered(answer).map(reached)?;
        Ok(Ended { reached, count: (count != u64::MAX).then_some(count) })
    }

    /// A run over one event.
    pub fn step(self, state: State, event: u8) -> Result<Reached, Refusal> {
        let (bytes, length) = (self.bytes.as_ptr(), self.bytes.len());
        // The slice is lent for the call.
        let answer = unsafe { library::tefuji_step(bytes, length, self.opened, state.0, event) };
        answered(answer).map(reached)
    }

    /// Makes a fresh desk of a row of watches, whatever stood there; each carries this opening's number. A row that is empty or above `DESK_MAX` is refused
    /// by 18.
    pub fn fresh(self, desk: &mut [Watch]) -> Result<(), Refusal> {
        let (bytes, length) = (self.bytes.as_ptr(), self.bytes.len());
        // Both slices are lent for the call, and a `&mut` overlaps nothing.
        let answer = unsafe {
            library::tefuji_fresh(desk.as_mut_ptr(), desk.len(), bytes, length, self.opened)
        };
        answered(answer).map(|_| ())
    }

    /// Adds an event to those that wait for the tunnel with this number. A desk of an opening with another number is refused by 24 at its first such watch.
    /// 20 says that the tunnel's queue is full, 21 that it has had 4,294,967,295 events.
    pub fn post(self, desk: &mut [Watch], number: usize, event: u8) -> Result<(), Refusal> {
        // Both slices are lent for the call, and a `&mut` overlaps nothing.
        let answer = unsafe {
            library::tefuji_post(
                desk.as_mut_ptr(),
                desk.len(),
                self.bytes.as_ptr(),
                self.bytes.len(),
                self.opened,
                number,
                event,
            )
        };
        answered(answer).map(|_| ())
    }

    /// Hears the oldest event of the next tunnel after `last` that has one waiting, going round; none where none waits, and `last` then stays what it
    /// was. A number outside the row counts as the last tunnel. A desk of an opening with another number is refused by 24, also where none waits.
    pub fn turn(self, desk: &mut [Watch], last: usize) -> Result<Option<Heard>, Refusal> {
        // Both slices are lent for the call, and a `&mut` overlaps nothing.
        let answer = unsafe {
            library::tefuji_turn(
                desk.as_mut_ptr(),
                desk.len(),
                self.bytes.as_ptr(),
                self.bytes.len(),
                self.opened,
                last,
            )
        };
        answered(answer).map(heard)
    }

    /// Joins two recordings of the same events, two bytes an event, which signals are known and their values, and runs the table from state 0 over all
    /// possible completions. A verdict other than undecided is that of all of them. 23 says at which event the recordings contradict each other.
    pub fn judge_recordings(self, first: &[u8], second: &[u8]) -> Result<Verdict, Refusal> {
        // All three slices are lent for the call.
        let answer = unsafe {
            library::tefuji_judge(
                self.bytes.as_ptr(),
                self.bytes.len(),
                self.opened,
                first.as_ptr(),
                first.len(),
                second.as_ptr(),
                second.len(),
            )
        };
        answered(answer).map(verdict)
    }
}
