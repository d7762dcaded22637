//! One generated case: what is handed to the library, and where it comes from.

use std::fmt;

use oracle::desk::Tunnel;
use oracle::openings::State;

pub struct Case {
    /// The generator's name for it, counted in the summary.
    pub origin: &'static str,
    pub input: Input,
}

/// A byte list is printed in hexadecimal.
pub enum Input {
    Write {
        text: Vec<u8>,
        signals: u8,
        rooms: Vec<Room>,
        paint: u8,
    },
    Build {
        rule: Vec<u8>,
        rooms: Vec<Room>,
        paint: u8,
    },
    Open {
        table: Vec<u8>,
        number: u16,
    },
    /// The opening need not be the table's.
    Run {
        table: Vec<u8>,
        opened: u64,
        state: State,
        events: Vec<u8>,
        cell: u64,
    },
    Step {
        table: Vec<u8>,
        number: u16,
        steps: Vec<Step>,
        strays: Vec<(u64, Step)>,
    },
    /// Good tables, each with the number of its opening, and runs with them.
    Openings {
        tables: Vec<(Vec<u8>, u16)>,
        runs: Vec<Passed>,
    },
    Text {
        table: Vec<u8>,
        length: usize,
        paint: u8,
    },
    /// Calls over one desk, each over what the one before left.
    Desk {
        table: Vec<u8>,
        desk: Vec<Tunnel>,
        calls: Vec<Call>,
    },
    /// A desk that is made fresh first; the table is good, and the first turn takes `last`.
    History {
        table: Vec<u8>,
        number: u16,
        desk: Vec<Tunnel>,
        last: usize,
        moves: Vec<Move>,
    },
    /// Pairs of recordings, each judged by itself over one table.
    Judge {
        table: Vec<u8>,
        pairs: Vec<Recordings>,
    },
}

/// Two recordings, and an opening that need not be the table's.
pub struct Recordings {
    pub opened: u64,
    pub first: Vec<u8>,
    pub second: Vec<u8>,
}

/// A call over a desk. The opening need not be the table's.
#[derive(Clone, Copy, Debug)]
pub enum Call {
    Fresh { opened: u64 },
    Post { opened: u64, number: usize, event: u8 },
    Turn { opened: u64, last: usize },
}

impl Call {
    /// What is called.
    pub fn kind(self) -> &'static str {
        match self {
            Call::Fresh { .. } => "fresh",
            Call::Post { .. } => "post",
            Call::Turn { .. } => "turn",
        }
    }

    pub fn opened(self) -> u64 {
        match self {
            Call::Fresh { opened } | Call::Post { opened, .. } | Call::Turn { opened, .. } => {
                opened
            }
        }
    }
}

/// What happens next at a desk.
#[derive(Clone, Copy, Debug)]
pub enum Move {
    Post {
        number: usize,
        event: u8,
    },
    /// The tunnel that was heard last posts.
    Again {
        event: u8,
    },
    /// Takes the number that the turn before returned.
    Turn,
    /// A post and a turn with the same table opened with another number.
    Foreign {
        number: u16,
        event: u8,
    },
}

/// One event read in one state.
#[derive(Clone, Copy, Debug)]
pub struct Step {
    pub state: State,
    pub event: u8,
}

/// A run with one of several openings, from one of the states that are held by then: first the
/// starts, then what runs returned, counted round.
#[derive(Clone, Debug)]
pub struct Passed {
    pub by: usize,
    pub from: usize,
    pub events: Vec<u8>,
}

/// The length of an output, beside that of the table or the rule file. Where there is none, it is as if a
/// table had 64 bytes, and a rule file 24.
#[derive(Clone, Copy, Debug)]
pub enum Room {
    Empty,
    ShortBy(usize),
    Exact,
    LongerBy(usize),
    Largest,
}

impl Room {
    /// The length where `exact` is just enough, and `largest` enough for any.
    pub fn length(self, exact: usize, largest: usize) -> usize {
        match self {
            Room::Empty => 0,
            Room::ShortBy(bytes) => exact.saturating_sub(bytes),
            Room::Exact => exact,
            Room::LongerBy(bytes) => exact + bytes,
            Room::Largest => largest,
        }
    }
}

impl Input {
    /// What is called.
    pub fn kind(&self) -> &'static str {
        match self {
            Input::Write { .. } => "write",
            Input::Build { .. } => "build",
            Input::Open { .. } => "open",
            Input::Run { .. } => "run",
            Input::Step { .. } => "step",
            Input::Openings { .. } => "openings",
            Input::Text { .. } => "text",
            Input::Desk { .. } => "desk",
            Input::History { .. } => "history",
            Input::Judge { .. } => "judge",
        }
    }
}

impl fmt::Display for Case {
    fn fmt(&self, out: &mut fmt::Formatter<'_>) -> fmt::Result {
        writeln!(out, "{}, {}", self.input.kind(), self.origin)?;
        match &self.input {
            Input::Write { text, signals, rooms, paint } => {
                writeln!(out, "text {}, {signals} signals", Hex(text))?;
                write!(out, "outputs {rooms:?}, painted {paint}")
            }
            Input::Build { rule, rooms, paint } => {
                write!(out, "rule {}\noutputs {rooms:?}, painted {paint}", Hex(rule))
            }
            Input::Open { table, number } => write!(out, "table {}, number {number}", Hex(table)),
            Input::Run { table, opened, state, events, cell } => {
                write!(out, "table {}\nopening {opened:#x}, {state:?}\n", Hex(table))?;
                write!(out, "events {}\ncell of the count {cell}", Hex(events))
            }
            Input::Step { table, number, steps, strays } => {
                write!(out, "table {}\nnumber {number}, steps {steps:?}\n", Hex(table))?;
                write!(out, "steps with other openings {strays:?}")
            }
            Input::Openings { tables, runs } => {
                let list = |(table, number): &(Vec<u8>, u16)| format!("{number}: {}", Hex(table));
                let tables: Vec<String> = tables.iter().map(list).collect();
                write!(out, "tables by their numbers {}\nruns {runs:?}", tables.join(", "))
            }
            Input::Text { table, length, paint } => {
                write!(out, "table {}\noutput of {length} bytes, painted {paint}", Hex(table))
            }
            Input::Desk { table, desk, calls } => {
                write!(out, "table {}\n{}calls {calls:?}", Hex(table), Row(desk))
            }
            Input::History { table, number, desk, last, moves } => {
                write!(out, "table {}, number {number}\n{}", Hex(table), Row(desk))?;
                write!(out, "fresh, last heard {last}, then {moves:?}")
            }
            Input::Judge { table, pairs } => {
                write!(out, "table {}", Hex(table))?;
                pairs.iter().try_for_each(|pair| write!(out, "\n{pair}"))
            }
        }
    }
}

impl fmt::Display for Recordings {
    fn fmt(&self, out: &mut fmt::Formatter<'_>) -> fmt::Result {
        let Recordings { opened, first, second } = self;
        write!(out, "opening {opened:#x}, first {}, second {}", Hex(first), Hex(second))
    }
}

/// The watches of a desk, each on its line.
pub struct Row<'a>(pub &'a [Tunnel]);

impl fmt::Display for Row<'_> {
    fn fmt(&self, out: &mut fmt::Formatter<'_>) -> fmt::Result {
        writeln!(out, "{} watches", self.0.len())?;
        for (number, tunnel) in self.0.iter().enumerate() {
            let Tunnel { state, opening, waiting, filled, heard, first, slots } = tunnel;
            let slots: Vec<u8> = slots.iter().copied().collect();
            write!(
                out,
                "{number}: state {state} of {opening}, {waiting} waiting, {heard} heard, "
            )?;
            writeln!(out, "filled {filled}, first {first}, slots {}", Hex(&slots))?;
        }
        Ok(())
    }
}

/// Bytes in hexadecimal, two digits each.
pub struct Hex<'a>(pub &'a [u8]);

impl fmt::Display for Hex<'_> {
    fn fmt(&self, out: &mut fmt::Formatter<'_>) -> fmt::Result {
        self.0.iter().try_for_each(|byte| write!(out, "{byte:02x}"))
    }
}
