//! Runs over a table's bytes with any opening, from any state over any list of events.

use oracle::openings::{self, State};
use oracle::table::Monitor;

use super::{lent, refused_by, same, same_bytes, same_code, same_start, wrapped, Compared};
use crate::answer;
use crate::library;
use crate::tally::openings::Ran;
use crate::tally::Tally;

/// `cell` is what stands where the count goes.
pub fn compare(
    (table, opened): (&[u8], u64),
    state: State,
    events: &[u8],
    cell: u64,
    tally: &mut Tally,
) -> Compared {
    let expected = openings::run((table, opened), state, events);
    let (lent_table, lent_events) = (lent(table), lent(events));
    let mut count = Box::new(cell);
    let code = library::run(&lent_table, opened, answer::bits(state), &lent_events, &mut count);
    same_code("answer of run", code, answer::arrived(expected))?;
    same("count of run", *count, answer::counted(expected, cell))?;
    same_start(opened)?;
    let monitor = Monitor::open(table).ok();
    if let Some(wrapped) = wrapped(&lent_table, monitor.as_ref(), opened) {
        let ended = wrapped.run(answer::state(state), &lent_events);
        same("run", ended, expected.map(answer::ended).map_err(answer::refusal))?;
    }
    same_bytes("the table that was read", &lent_table, table)?;
    same_bytes("the events that were read", &lent_events, events)?;
    tally.add_answer("run", refused_by(code));
    let is_table = monitor.is_some();
    let ran = Ran { table, is_table, opened, state, events, answer: expected };
    tally.openings.add("run", &ran);
    match monitor {
        Some(monitor) => tally.add_run("run", &monitor, (state.number, events), expected),
        None => tally.add_spoilt(table),
    }
    Ok(())
}
