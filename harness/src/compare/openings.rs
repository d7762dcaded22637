//! Several openings and the states that their runs return, passed from one to another. Where all
//! numbers are distinct, the law of C-18 is asserted all the way.

use oracle::openings::{self, Ledger, State};
use oracle::table::Monitor;

use super::history::lawful;
use super::{lent, refused_by, same, same_bytes, same_code, same_start, wrapped, Compared};
use crate::answer;
use crate::case::Passed;
use crate::library;
use crate::tally::openings::Handed;
use crate::tally::Tally;
use crate::tefuji::Opened;

/// A table as it is lent, and what opening it answered.
struct Opening {
    table: Box<[u8]>,
    monitor: Monitor,
    opened: u64,
    number: u16,
}

/// A state that was returned, and by which opening.
struct Held {
    state: State,
    of: usize,
    is_start: bool,
}

pub fn compare(tables: &[(Vec<u8>, u16)], runs: &[Passed], tally: &mut Tally) -> Compared {
    let all: Vec<Opening> = tables.iter().map(open).collect();
    for Opening { table, monitor, opened, number } in &all {
        same_code("answer of open", library::open(table, *number), *opened)?;
        same("the opening of a good table", *opened, answer::opened(monitor, *number))?;
        same_start(*opened)?;
    }
    let starts = all.iter().map(|opening| (&opening.monitor, openings::start(opening.opened)));
    let mut ledger = Ledger::new(&starts.collect::<Vec<_>>());
    let is_lawful = are_distinct(tables);
    let starts = all.iter().enumerate();
    let mut held: Vec<Held> = starts
        .map(|(of, opening)| Held { state: openings::start(opening.opened), of, is_start: true })
        .collect();
    let wrappers: Vec<Opened> = all
        .iter()
        .map(|Opening { table, monitor, opened, .. }| wrapped(table, Some(monitor), *opened))
        .collect::<Option<_>>()
        .expect("the tables are good");
    for Passed { by, from, events } in runs {
        let from = from % held.len();
        let (opening, Held { state, of, is_start }) = (&all[*by], &held[from]);
        let answer = run(opening, wrappers[*by], *state, events, tally)?;
        if is_lawful {
            lawful(ledger.told(*by, from, events, answer))?;
        }
        let (own, other) = (&all[*of], opening);
        tally.openings.add_handed(&Handed {
            numbers: (own.number, other.number),
            is_same_table: own.table == other.table,
            is_own: of == by,
            is_start: *is_start,
            answer,
        });
        if let Ok(arrived) = answer {
            held.push(Held { state: arrived.state, of: *by, is_start: false });
        }
    }
    let as_lent = all.iter().zip(tables);
    as_lent
        .map(|(opening, (table, _))| same_bytes("a table that was read", &opening.table, table))
        .collect()
}

fn open((table, number): &(Vec<u8>, u16)) -> Opening {
    let (table, number) = (lent(table), *number);
    let monitor = Monitor::open(&table).expect("the table is good");
    let opened = answer::opened(&monitor, number);
    Opening { table, monitor, opened, number }
}

fn are_distinct(tables: &[(Vec<u8>, u16)]) -> bool {
    let mut numbers: Vec<u16> = tables.iter().map(|&(_, number)| number).collect();
    numbers.sort_unstable();
    numbers.windows(2).all(|two| two[0] != two[1])
}

type Ran = Result<openings::Arrived, oracle::refusal::Refusal>;

/// A run on both sides and by the wrapper; over one event also as a step.
fn run(
    opening: &Opening,
    wrapped: Opened,
    state: State,
    events: &[u8],
    tally: &mut Tally,
) -> Result<Ran, super::Difference> {
    let Opening { table, opened, .. } = opening;
    let expected = openings::run((table, *opened), state, events);
    let (bits, lent_events, mut count) = (answer::bits(state), lent(events), 7);
    let code = library::run(table, *opened, bits, &lent_events, &mut count);
    same_code("run with one of several openings", code, answer::arrived(expected))?;
    same("its count", count, answer::counted(expected, 7))?;
    if let [event] = events {
        let step = library::step(table, *opened, bits, *event);
        same_code("step with one of several openings", step, code)?;
    }
    let ended = wrapped.run(answer::state(state), &lent_events);
    same("run", ended, expected.map(answer::ended).map_err(answer::refusal))?;
    tally.add_answer("run", refused_by(code));
    Ok(expected)
}
