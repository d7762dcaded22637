//! Every answer of the library for a case, held against the oracle's.
//!
//! What is handed over lies in allocations of exactly its length, so that valgrind sees each byte
//! read or written outside. Afterwards what was only read is compared with what it was.

mod build;
mod desk;
mod history;
mod judge;
mod openings;
mod run;
mod step;
mod text;
mod write;

use std::fmt::{self, Debug};

use oracle::counted::number_of;
use oracle::table::Monitor;

use crate::answer;
use crate::case::{Case, Hex, Input};
use crate::library;
use crate::tally::Tally;
use crate::tefuji;

/// Where the library and the oracle differ.
pub struct Difference {
    what: &'static str,
    library: String,
    oracle: String,
}

impl fmt::Display for Difference {
    fn fmt(&self, out: &mut fmt::Formatter<'_>) -> fmt::Result {
        let Difference { what, library, oracle } = self;
        write!(out, "different: {what}\nlibrary: {library}\noracle: {oracle}")
    }
}

pub type Compared = Result<(), Difference>;

pub fn case(case: &Case, tally: &mut Tally) -> Compared {
    tally.add_case(case.input.kind(), case.origin);
    match &case.input {
        Input::Write { text, signals, rooms, paint } => {
            write::compare(text, *signals, rooms, *paint, tally)
        }
        Input::Build { rule, rooms, paint } => build::compare(rule, rooms, *paint, tally),
        Input::Open { table, number } => open(table, *number, tally),
        Input::Run { table, opened, state, events, cell } => {
            run::compare((table, *opened), *state, events, *cell, tally)
        }
        Input::Step { table, number, steps, strays } => {
            step::compare(table, *number, steps, strays, tally)
        }
        Input::Openings { tables, runs } => openings::compare(tables, runs, tally),
        Input::Text { table, length, paint } => text::compare(table, *length, *paint, tally),
        Input::Desk { table, desk, calls } => desk::compare(table, desk, calls, tally),
        Input::History { table, number, desk, last, moves } => {
            history::compare((table, *number), desk, *last, moves, tally)
        }
        Input::Judge { table, pairs } => judge::compare(table, pairs, tally),
    }
}

fn open(table: &[u8], number: u16, tally: &mut Tally) -> Compared {
    let lent = lent(table);
    let expected = Monitor::open(table);
    let code = answer::opening(&expected, number);
    same_code("answer of open", library::open(&lent, number), code)?;
    same_start(code)?;
    match &expected {
        Ok(monitor) => tally.add_masked("open", monitor),
        Err(_) => tally.add_spoilt(table),
    }
    let opened = tefuji::Opened::open(&lent, number);
    let found = opened.map(|opened| (opened.signals(), usize::from(opened.states())));
    let expected = expected.map(|monitor| (monitor.signals, monitor.states.len()));
    same("what opening found", found, expected.map_err(answer::refusal))?;
    if let Ok(opened) = opened {
        let start = opened.start();
        let parts = (opened.number(), start.opening(), start.number());
        same("number and start by the wrapper", parts, (number, number, 0))?;
    }
    same_bytes("the table that was read", &lent, table)?;
    tally.add_answer("open", refused_by(code));
    Ok(())
}

/// The start of an opening, or of any other value.
fn same_start(opened: u64) -> Compared {
    let expected = answer::bits(oracle::openings::start(opened));
    same("start", library::start(opened), expected)
}

/// The opening by the wrapper, where the table is good and this is its opening.
fn wrapped<'a>(
    table: &'a [u8],
    monitor: Option<&Monitor>,
    opened: u64,
) -> Option<tefuji::Opened<'a>> {
    let number = number_of(opened);
    let is_its = answer::opened(monitor?, number) == opened;
    is_its.then(|| tefuji::Opened::open(table, number).ok()).flatten()
}

/// A copy in an allocation of exactly its length.
fn lent(bytes: &[u8]) -> Box<[u8]> {
    bytes.into()
}

/// An output in an allocation of exactly its length, each byte of one value.
fn painted(length: usize, paint: u8) -> Box<[u8]> {
    vec![paint; length].into_boxed_slice()
}

/// The refusal's number in a code, if it is one.
fn refused_by(code: u64) -> Option<u8> {
    Some((code >> 56) as u8).filter(|&number| number > 0)
}

fn same<T: Debug + PartialEq>(what: &'static str, library: T, oracle: T) -> Compared {
    if library == oracle {
        return Ok(());
    }
    Err(Difference { what, library: format!("{library:?}"), oracle: format!("{oracle:?}") })
}

fn same_code(what: &'static str, library: u64, oracle: u64) -> Compared {
    if library == oracle {
        return Ok(());
    }
    let shown = |code: u64| match refused_by(code) {
        Some(number) => format!("refused {number} at {}", code << 8 >> 8),
        None if code >> 55 == 1 => format!("heard {code:#x}"),
        None => format!("{} * 2^32 + {:#x}", code >> 32, code as u32),
    };
    Err(Difference { what, library: shown(library), oracle: shown(oracle) })
}

fn same_bytes(what: &'static str, library: &[u8], oracle: &[u8]) -> Compared {
    if library == oracle {
        return Ok(());
    }
    Err(Difference { what, library: Hex(library).to_string(), oracle: Hex(oracle).to_string() })
}
