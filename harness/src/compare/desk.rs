//! Calls over a desk, on both sides, one after the other.

use oracle::counted::{number_of, Counted};
use oracle::desk::{self, Served, Tunnel};
use oracle::table::Monitor;

use super::{lent, refused_by, same, same_bytes, same_code, Compared, Difference};
use crate::answer;
use crate::case::{Call, Row};
use crate::library;
use crate::tally::seen::Seen;
use crate::tally::Tally;
use crate::tefuji::{self, Opened, Watch};

pub fn compare(table: &[u8], desk: &[Tunnel], calls: &[Call], tally: &mut Tally) -> Compared {
    let lent_table = lent(table);
    let mut both = Both::new(&lent_table, desk);
    for call in calls {
        both.call(*call, tally).map(drop)?;
    }
    same_bytes("the table that was read", &lent_table, table)
}

/// A desk as it is lent to the library, in an allocation of exactly its length, and as the oracle
/// has it.
pub struct Both<'a> {
    table: &'a [u8],
    /// What opening the table found, if it is good.
    monitor: Option<Monitor>,
    /// The wrapper's opening, with the number that was last asked for.
    wrapped: Option<Opened<'a>>,
    library: Box<[Watch]>,
    oracle: Vec<Tunnel>,
}

impl<'a> Both<'a> {
    pub fn new(table: &'a [u8], desk: &[Tunnel]) -> Self {
        let monitor = Monitor::open(table).ok();
        let library = desk.iter().map(answer::watch).collect();
        Both { table, monitor, wrapped: None, library, oracle: desk.to_vec() }
    }

    /// The desk as both sides have it.
    pub fn desk(&self) -> &[Tunnel] {
        &self.oracle
    }

    /// Makes one call on both sides; with an opening of the table also by the wrapper.
    pub fn call(&mut self, call: Call, tally: &mut Tally) -> Result<Served, Difference> {
        let mut wrapped_desk = self.library.clone();
        let before = self.library.clone();
        let is_remade = matches!(call, Call::Fresh { .. }) && self.is_wrong();
        let (code, expected) = self.both_sides(call);
        same_code(call.kind(), code, answer::served(expected))?;
        self.same_desk("the desk afterwards")?;
        if expected.is_err() {
            same("the desk kept on a refusal", &self.library, &before)?;
        }
        if let Some(wrapped) = self.wrapped(call, &mut wrapped_desk) {
            let expected = expected.map(|heard| heard.map(answer::heard));
            same("the wrapper's answer", wrapped, expected.map_err(answer::refusal))?;
            same("the desk after the wrapper's call", &wrapped_desk, &self.library)?;
        }
        tally.add_answer(call.kind(), refused_by(code));
        tally.desks.add(&Seen {
            table: self.table,
            opened: self.opened(call.opened()),
            before: &before,
            desk: &self.oracle,
            call,
            is_remade,
            answer: expected,
        });
        Ok(expected)
    }

    fn both_sides(&mut self, call: Call) -> (u64, Served) {
        let (table, ours, theirs) = (self.table, &mut self.library, &mut self.oracle);
        match call {
            Call::Fresh { opened } => {
                let expected = desk::fresh(theirs, (table, opened));
                (library::fresh(ours, table, opened), expected.map(|()| None))
            }
            Call::Post { opened, number, event } => {
                let expected = desk::post(theirs, (table, opened), number, event);
                (library::post(ours, table, opened, number, event), expected.map(|()| None))
            }
            Call::Turn { opened, last } => {
                let expected = desk::turn(theirs, (table, opened), last);
                (library::turn(ours, table, opened, last), expected)
            }
        }
    }

    /// The same call by the safe wrapper, where it can make it.
    fn wrapped(
        &mut self,
        call: Call,
        desk: &mut [Watch],
    ) -> Option<Result<Option<tefuji::Heard>, tefuji::Refusal>> {
        let number = number_of(call.opened());
        if self.opened(call.opened()) != Some(call.opened()) {
            return None;
        }
        if self.wrapped.map(Opened::number) != Some(number) {
            self.wrapped = Opened::open(self.table, number).ok();
        }
        let opened = self.wrapped?;
        Some(match call {
            Call::Fresh { .. } => opened.fresh(desk).map(|()| None),
            Call::Post { number, event, .. } => opened.post(desk, number, event).map(|()| None),
            Call::Turn { last, .. } => opened.turn(desk, last),
        })
    }

    /// Whether a watch is none of a desk over the table.
    fn is_wrong(&self) -> bool {
        let table = self.opened(0).and_then(|opened| Counted::new(self.table, opened));
        let is_wrong =
            |tunnel: &Tunnel| table.is_some_and(|table| !tunnel.faults(&table).is_empty());
        self.oracle.iter().any(is_wrong)
    }

    /// The opening of a good table with the number of this one.
    fn opened(&self, of: u64) -> Option<u64> {
        self.monitor.as_ref().map(|monitor| answer::opened(monitor, number_of(of)))
    }

    /// Each member of each watch is the same; there are no bytes beside them.
    fn same_desk(&self, what: &'static str) -> Compared {
        let is_same = |(ours, theirs): (&Watch, &Tunnel)| {
            (ours.state, ours.opening, ours.waiting)
                == (theirs.state, theirs.opening, theirs.waiting)
                && ours.state() == answer::state(theirs.stands())
                && (ours.filled, ours.heard, ours.first)
                    == (theirs.filled, theirs.heard, theirs.first)
                && theirs.slots == ours.events
        };
        if self.library.iter().zip(&self.oracle).all(is_same) {
            return Ok(());
        }
        let library = format!("{:?}", self.library);
        Err(Difference { what, library, oracle: Row(&self.oracle).to_string() })
    }
}
