//! Histories from a fresh desk, with the laws of C-15, C-16 and C-18 asserted all the way.

use oracle::desk::{Heard, Tunnel};
use oracle::history::{Broken, History};
use oracle::refusal::Refusal;
use oracle::table::Monitor;

use super::desk::Both;
use super::{lent, same_bytes, Compared, Difference};
use crate::answer;
use crate::case::{Call, Move};
use crate::tally::Tally;

pub fn compare(
    (table, number): (&[u8], u16),
    desk: &[Tunnel],
    last: usize,
    moves: &[Move],
    tally: &mut Tally,
) -> Compared {
    let lent_table = lent(table);
    let monitor = Monitor::open(table).expect("the table is good");
    let mut course = Course {
        monitor: &monitor,
        strangers: 0,
        both: Both::new(&lent_table, desk),
        history: History::new(&monitor, number, desk.len()),
        opened: answer::opened(&monitor, number),
        last,
    };
    let opened = course.opened;
    let is_fresh = course.both.call(Call::Fresh { opened }, tally)?.is_ok();
    lawful(is_fresh.then_some(()).ok_or("a fresh desk over a good table is refused"))?;
    lawful(course.history.check_all(course.both.desk()))?;
    for step in moves {
        course.follow(*step, tally)?;
    }
    lawful(course.history.check_all(course.both.desk()))?;
    tally.desks.add_history(&course.history, course.both.desk(), course.strangers);
    same_bytes("the table that was read", &lent_table, table)
}

/// A history on its way.
struct Course<'a> {
    monitor: &'a Monitor,
    /// How often another opening was tried.
    strangers: usize,
    both: Both<'a>,
    history: History<'a>,
    opened: u64,
    /// The number heard last.
    last: usize,
}

impl Course<'_> {
    fn follow(&mut self, step: Move, tally: &mut Tally) -> Compared {
        match step {
            Move::Post { number, event } => self.post(number, event, tally),
            Move::Again { event } => self.post(self.last, event, tally),
            Move::Turn => self.turn(tally),
            Move::Foreign { number, event } => self.foreign(number, event, tally),
        }
    }

    fn post(&mut self, number: usize, event: u8, tally: &mut Tally) -> Compared {
        let opened = self.opened;
        let answer = self.both.call(Call::Post { opened, number, event }, tally)?;
        if answer.is_ok() {
            self.history.posted(number, event);
            lawful(self.history.check(number, &self.both.desk()[number]))?;
        }
        Ok(())
    }

    /// Refused by 24 at the first watch, whatever has happened.
    fn foreign(&mut self, number: u16, event: u8, tally: &mut Tally) -> Compared {
        let (opened, last) = (answer::opened(self.monitor, number), self.last);
        let calls = [Call::Post { opened, number: last, event }, Call::Turn { opened, last }];
        for call in calls {
            let answer = self.both.call(call, tally)?;
            let law = Err("another opening than the desk's is not refused by 24 at 0");
            lawful(if answer == Err(Refusal::new(24, 0)) { Ok(()) } else { law })?;
        }
        self.strangers += 1;
        Ok(())
    }

    fn turn(&mut self, tally: &mut Tally) -> Compared {
        let (opened, last) = (self.opened, self.last);
        let answer = self.both.call(Call::Turn { opened, last }, tally)?;
        let Ok(heard) = answer else {
            return lawful(Err("a turn over a desk that only posts and turns changed is refused"));
        };
        lawful(self.history.turned(heard))?;
        if let Some(Heard { number, .. }) = heard {
            self.last = number;
            lawful(self.history.check(number, &self.both.desk()[number]))?;
        }
        Ok(())
    }
}

/// Both sides agree, but not with the papers.
pub fn lawful(law: Result<(), Broken>) -> Compared {
    let agreed = || "as the other".to_string();
    law.map_err(|what| Difference { what, library: agreed(), oracle: agreed() })
}
