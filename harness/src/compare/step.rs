//! Single steps: with what opening the same table answered, and with any other opening.

use oracle::counted::{Counted, Halt};
use oracle::openings::{self, Arrived, State};
use oracle::refusal::Refusal;
use oracle::table::Monitor;

use super::{lent, refused_by, same, same_bytes, same_code, Compared};
use crate::answer;
use crate::case::Step;
use crate::library;
use crate::tally::openings::Ran;
use crate::tally::Tally;
use crate::tefuji;

pub fn compare(
    table: &[u8],
    number: u16,
    steps: &[Step],
    strays: &[(u64, Step)],
    tally: &mut Tally,
) -> Compared {
    let lent_table = lent(table);
    let tried = Tried {
        bytes: &lent_table,
        number,
        opened: library::open(&lent_table, number),
        wrapped: tefuji::Opened::open(&lent_table, number),
        monitor: Monitor::open(table),
    };
    for step in steps {
        tried.compare(*step, tally)?;
    }
    for (opened, step) in strays {
        compare_stray((&lent_table, tried.monitor.is_ok()), *opened, *step, tally)?;
    }
    same_bytes("the table that was read", &lent_table, table)
}

/// A table that the library, its wrapper and the oracle have opened once, and perhaps refused.
struct Tried<'a> {
    bytes: &'a [u8],
    number: u16,
    opened: u64,
    wrapped: Result<tefuji::Opened<'a>, tefuji::Refusal>,
    monitor: Result<Monitor, Refusal>,
}

impl Tried<'_> {
    /// A step is a run over its one event. A refusal is handed on as an opening.
    fn compare(&self, Step { state, event }: Step, tally: &mut Tally) -> Compared {
        let expected = self.expected(state, event);
        let code = library::step(self.bytes, self.opened, answer::bits(state), event);
        same_code("answer of step", code, answer::arrived(expected))?;
        let wrapped = self.wrapped.and_then(|opened| opened.step(answer::state(state), event));
        same("step", wrapped, expected.map(answer::reached).map_err(answer::refusal))?;
        tally.add_answer("step", refused_by(code));
        let (table, opened) = (self.bytes, self.opened);
        let is_table = self.monitor.is_ok();
        let ran = Ran { table, is_table, opened, state, events: &[event], answer: expected };
        tally.openings.add("step", &ran);
        if let Ok(monitor) = &self.monitor {
            tally.add_run("step", monitor, (state.number, &[event]), expected);
        }
        Ok(())
    }

    /// 14 where the bytes are no table, 24 for another number, and otherwise the table's own run.
    fn expected(&self, state: State, event: u8) -> Result<Arrived, Refusal> {
        let monitor = self.monitor.as_ref().map_err(|&refusal| refusal)?;
        if state.opening != self.number {
            return Err(Refusal::new(24, 0));
        }
        let end = monitor.run(state.number, &[event])?;
        let state = State { number: end.end_state, ..state };
        Ok(Arrived { state, verdict: end.verdict, count: end.count })
    }
}

/// A step with an opening of any value.
fn compare_stray(
    (table, is_table): (&[u8], bool),
    opened: u64,
    step: Step,
    tally: &mut Tally,
) -> Compared {
    let Step { state, event } = step;
    let expected = openings::run((table, opened), state, &[event]);
    let code = library::step(table, opened, answer::bits(state), event);
    same_code("answer of step with another opening", code, answer::arrived(expected))?;
    let (came, stepped) = stray_step(table, opened, step);
    same("the oracle's step and its run", stepped, expected.map(|end| end.state.number))?;
    tally.add_answer("step", refused_by(code));
    let ran = Ran { table, is_table, opened, state, events: &[event], answer: expected };
    tally.openings.add("step", &ran);
    tally.add_stray(came);
    Ok(())
}

/// What is promised for any bytes and opening: 14 unless the counts are a table's and the bytes have
/// its length; 24 for a state with another number; then 13 and 12, for a byte that is no event and
/// for an event for which the row of state 0 has 65,535; and 14 where a state or a verdict byte that
/// is read is none of a table's. With it, how far the step comes.
fn stray_step(
    table: &[u8],
    opened: u64,
    Step { state, event }: Step,
) -> (&'static str, Result<u16, Refusal>) {
    let Some(counted) = Counted::new(table, opened) else {
        return ("no table's counts or length", Err(Refusal::new(14, 0)));
    };
    if state.opening != counted.number {
        return ("a state with another number", Err(Refusal::new(24, 0)));
    }
    let stepped = counted.step(state.number, event);
    let came = match stepped {
        Err(Halt::NoState | Halt::NoEvent) => "no state or event",
        Err(Halt::ImpossibleEvent) => "an impossible event",
        Err(Halt::MissingSuccessor) => "a missing successor",
        Err(Halt::SuccessorPastTheStates) => "a successor past the states",
        Err(Halt::NoVerdict) => "a verdict byte above 3",
        Ok(_) => "answered",
    };
    (came, stepped.map(|end| end.end_state).map_err(Halt::refusal))
}
