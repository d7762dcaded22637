//! What a single call over a desk met, in the words under which it is counted.

use oracle::counted::{number_of, Counted};
use oracle::desk::{Fault, Heard, Served, Tunnel, EVENT_LIMIT, QUEUE_LIMIT, ROW_LIMIT};
use oracle::mask;
use oracle::refusal::Refusal;
use oracle::table::Verdict;

use super::openings;
use crate::case::Call;
use crate::tefuji::Watch;

/// A place from here on is not shown as it is.
const PLACES: usize = 1 << 56;

/// A call over a desk and what it came to.
pub struct Seen<'a> {
    pub table: &'a [u8],
    /// What opening the table with the call's number answers, if it is good.
    pub opened: Option<u64>,
    /// As it was lent.
    pub before: &'a [Watch],
    /// As the call left it; after a refusal, as it was.
    pub desk: &'a [Tunnel],
    pub call: Call,
    /// A desk with a wrong watch was made fresh.
    pub is_remade: bool,
    pub answer: Served,
}

/// Words, each with whether they hold.
type Words = Vec<(bool, &'static str)>;

impl Seen<'_> {
    pub fn words(&self) -> Vec<&'static str> {
        let all = match (self.answer, self.call) {
            (Err(refusal), _) => self.refused(refusal),
            (Ok(_), Call::Fresh { .. }) => self.made_fresh(),
            (Ok(_), Call::Post { number, .. }) => [self.posted(number), self.common()].concat(),
            (Ok(None), Call::Turn { .. }) => [self.common(), vec![(true, "none waits")]].concat(),
            (Ok(Some(heard)), Call::Turn { last, .. }) => {
                [self.heard(last, heard), self.remembered(heard), self.common()].concat()
            }
        };
        all.into_iter().filter(|(is_so, _)| *is_so).map(|(_, words)| words).collect()
    }

    /// The numbers of all refusals that apply to a call, each by itself.
    pub fn applying(&self) -> Vec<u8> {
        let row = self.desk.len();
        let is_fresh = matches!(self.call, Call::Fresh { .. });
        let is_table = if is_fresh { self.start().is_some() } else { self.counted().is_some() };
        let mut all = vec![
            (!is_table, 14),
            (row == 0 || row > ROW_LIMIT, 18),
            (!is_fresh && !self.foreign().is_empty(), 24),
            (!is_fresh && !self.wrong().is_empty(), 13),
        ];
        if let Call::Post { number, event, .. } = self.call {
            let is_bad = |table: Counted| !mask::has(table.possible, event);
            let is_full = |tunnel: &Tunnel| usize::from(tunnel.waiting) >= QUEUE_LIMIT;
            all.extend([
                (number >= row, 19),
                (self.table().is_some_and(is_bad), 12),
                (self.desk.get(number).is_some_and(is_full), 20),
                (self.desk.get(number).is_some_and(had_its_last_event), 21),
            ]);
        }
        all.into_iter().filter(|(applies, _)| *applies).map(|(_, number)| number).collect()
    }

    /// The table by the opening that was given, if it fits.
    fn counted(&self) -> Option<Counted<'_>> {
        Counted::new(self.table, self.call.opened())
    }

    /// The same, or else by the table's own.
    fn table(&self) -> Option<Counted<'_>> {
        self.counted().or_else(|| Counted::new(self.table, self.opened?))
    }

    /// The verdict of state 0, if the opening fits and it is one.
    fn start(&self) -> Option<Verdict> {
        self.counted().and_then(|table| table.verdict(0))
    }

    /// The numbers of the wrong watches.
    fn wrong(&self) -> Vec<usize> {
        let Some(table) = self.table() else {
            return Vec::new();
        };
        let is_wrong = |number: &usize| !self.desk[*number].faults(&table).is_empty();
        (0..self.desk.len()).filter(is_wrong).collect()
    }

    /// The number of the opening that was given.
    fn own(&self) -> u16 {
        number_of(self.call.opened())
    }

    /// The numbers of the watches of another opening.
    fn foreign(&self) -> Vec<usize> {
        let is_foreign = |number: &usize| self.desk[*number].opening != self.own();
        (0..self.desk.len()).filter(is_foreign).collect()
    }

    fn is_full_row(&self) -> bool {
        self.desk.len() == ROW_LIMIT
    }

    fn refused(&self, refusal: Refusal) -> Words {
        match (refusal.number, self.call) {
            (18, _) => {
                vec![(self.desk.is_empty(), "18 empty"), (!self.desk.is_empty(), "18 above 64")]
            }
            (24, _) => self.foreign_watch(refusal.place),
            (13, _) => self.wrong_watch(),
            (19, Call::Post { number, .. }) => self.outside(number),
            (12, Call::Post { event, .. }) => {
                let is_event = self.table().is_some_and(|table| event < 1 << table.signals);
                vec![
                    (is_event, "12 by an impossible event"),
                    (!is_event, "12 by a byte that is no event"),
                ]
            }
            (20, _) => vec![(true, "20")],
            (21, Call::Post { number, .. }) => {
                let waiting = self.desk[number].waiting;
                vec![
                    (true, "21"),
                    (waiting == 0, "21 with 0 waiting"),
                    (waiting == 1, "21 with 1 waiting"),
                    (waiting == 31, "21 with 31 waiting"),
                ]
            }
            _ => self.refused_table(),
        }
    }

    fn refused_table(&self) -> Words {
        let is_counted = self.counted().is_some();
        let is_18 = self.applying().contains(&18);
        vec![
            (!is_counted, "14 by counts or length"),
            (is_counted, "14 by what it reads"),
            (!is_counted && is_18, "14 by counts or length, also 18"),
            (is_counted && is_18, "14 by what it reads, also 18"),
        ]
    }

    /// A post to a number outside the row, which a tunnel of the row must not answer for.
    fn outside(&self, number: usize) -> Words {
        let low_byte = self.desk.get(number & 255);
        vec![
            (number == self.desk.len(), "19 at the row's end"),
            (number >= PLACES, "19 past 2^56"),
            (
                self.desk.last().is_some_and(had_its_last_event),
                "19 where the last tunnel had its last event",
            ),
            (
                low_byte.is_some_and(had_its_last_event),
                "19 where the tunnel of the low byte had its last event",
            ),
        ]
    }

    fn made_fresh(&self) -> Words {
        let (start, own) = (self.start(), self.own());
        vec![
            (self.is_remade, "over a wrong watch"),
            (self.is_full_row(), "of 64"),
            (self.before.iter().any(|watch| watch.opening != own), "over a foreign watch"),
            (own == 0, "with the number 0"),
            (own == 65535, "with the number 65535"),
            (own != 0 && own != 65535, "with another number"),
            (self.opened.is_none(), "over what is no table"),
            (start == Some(Verdict::Undecided), "with the start undecided"),
            (start == Some(Verdict::Satisfied), "with the start satisfied"),
            (start == Some(Verdict::Violated), "with the start violated"),
            (start == Some(Verdict::Moot), "with the start moot"),
        ]
    }

    /// Where the first watch of another opening stands, beside the wrong ones, and its number.
    fn foreign_watch(&self, first: usize) -> Words {
        let (foreign, wrong) = (self.foreign(), self.wrong());
        let (row, is_turn) = (self.desk.len(), matches!(self.call, Call::Turn { .. }));
        let waits = self.desk.iter().any(|tunnel| tunnel.waiting > 0);
        let others = vec![
            (row > 1 && first == 0, "24 at the first watch"),
            (first > 0 && first + 1 < row, "24 in between"),
            (row > 1 && first + 1 == row, "24 at the row's end"),
            (foreign.len() > 1, "24 with a later foreign watch"),
            (row > 1 && foreign.len() == row, "24 of all watches"),
            (wrong.iter().any(|&number| number < first), "24 behind a wrong watch"),
            (wrong.contains(&first), "24 at a wrong watch"),
            (wrong.iter().any(|&number| number > first), "24 before a wrong watch"),
            (is_turn && !waits, "24 though none waits"),
        ];
        [others, openings::numbers(self.desk[first].opening, self.own())].concat()
    }

    /// What is wrong with the first wrong watch, where it is one thing, and where it stands.
    fn wrong_watch(&self) -> Words {
        let wrong = self.wrong();
        let (Some(table), Some(&first)) = (self.table(), wrong.first()) else {
            return Vec::new();
        };
        let faults = self.desk[first].faults(&table);
        let later: Vec<Vec<Fault>> =
            wrong[1..].iter().map(|&number| self.desk[number].faults(&table)).collect();
        let is_last = first > 0 && first + 1 == self.desk.len();
        let others = vec![
            (faults == [Fault::StateTooLarge], "13 by a state"),
            (faults == [Fault::OverTheLimit], "13 by over 32 waiting"),
            (faults == [Fault::NoEvent], "13 by a byte that is no event"),
            (faults == [Fault::ImpossibleEvent], "13 by an impossible event"),
            (!later.is_empty(), "13 with a later wrong watch"),
            (is_last, "13 at the row's end"),
        ];
        [others, self.wrong_sum(first, &faults, &later)].concat()
    }

    /// Whether the first wrong watch has too many events, how many, and what is wrong later.
    fn wrong_sum(&self, first: usize, faults: &[Fault], later: &[Vec<Fault>]) -> Words {
        let (tunnel, sum) = (&self.desk[first], Fault::TooManyEvents);
        let (is_alone, is_by_others) = (faults == [sum], !faults.contains(&sum));
        let of = |heard: u32, waiting: u16| {
            is_alone && (tunnel.heard, tunnel.waiting) == (heard, waiting)
        };
        let is_alone_later = later.iter().any(|faults| faults == &[sum]);
        let is_by_others_later = later.iter().any(|faults| !faults.contains(&sum));
        vec![
            (is_alone, "13 by the sum"),
            (is_alone && tunnel.total() == EVENT_LIMIT + 1, "13 by the sum, one too large"),
            (of(4_294_967_295, 1), "13 by 4294967295 heard, 1 waiting"),
            (of(4_294_967_264, 32), "13 by 4294967264 heard, 32 waiting"),
            (of(4_294_967_294, 32), "13 by 4294967294 heard, 32 waiting"),
            (of(4_294_967_295, 32), "13 by 4294967295 heard, 32 waiting"),
            (!is_alone && !is_by_others, "13 by the sum and more"),
            (is_alone && is_by_others_later, "13 by the sum, later by another"),
            (is_by_others && is_alone_later, "13 by another, later by the sum"),
        ]
    }

    fn posted(&self, number: usize) -> Words {
        let waiting = usize::from(self.desk[number].waiting);
        vec![
            (self.is_full_row() && number + 1 == ROW_LIMIT, "to the last of 64"),
            (waiting == 1, "to an empty queue"),
            (waiting == QUEUE_LIMIT, "to the last slot"),
            (had_its_last_event(&self.desk[number]), "of the last event"),
            (self.before[number].filled != 0, "to a filled watch"),
        ]
    }

    fn heard(&self, last: usize, heard: Heard) -> Words {
        let row = self.desk.len();
        let was_full = usize::from(self.desk[heard.number].waiting) == QUEUE_LIMIT - 1;
        vec![
            (was_full, "heard with 32 waiting"),
            (last.checked_add(1) == Some(heard.number), "heard at the next number"),
            (heard.number < last && last < row, "heard by going round"),
            (row > 1 && heard.number == last, "heard at the given number itself"),
            (last >= row, "heard after a number outside"),
            (self.is_full_row(), "heard of 64"),
        ]
    }

    /// What the tunnel that was heard remembered, and what came to it.
    fn remembered(&self, Heard { number, verdict, .. }: Heard) -> Words {
        let (was, heard) = (&self.before[number], self.desk[number].heard);
        let (is_filled, is_undecided) = (was.filled != 0, verdict == Verdict::Undecided);
        vec![
            (u64::from(heard) == EVENT_LIMIT, "heard the last event"),
            (!is_filled && verdict == Verdict::Satisfied, "filled by satisfied"),
            (!is_filled && verdict == Verdict::Violated, "filled by violated"),
            (!is_filled && verdict == Verdict::Moot, "filled by moot"),
            (!is_filled && is_undecided, "left unfilled"),
            (!is_filled && is_undecided && was.first != 0, "left unfilled, first not 0"),
            (is_filled && !is_undecided, "kept at a verdict"),
            (is_filled && is_undecided, "kept where undecided"),
            (was.filled > 1, "kept filled by more than 1"),
            (is_filled && was.filled & 255 == 0, "kept filled in the high byte"),
            (is_filled && was.first > heard, "kept first above heard"),
        ]
    }

    /// What a post and a turn that are not refused have in common.
    fn common(&self) -> Words {
        let Some(table) = self.counted() else {
            return Vec::new();
        };
        let is_other = |byte: u8| !mask::has(table.possible, byte);
        let has_others = self.desk.iter().any(|tunnel| tunnel.free().any(is_other));
        let is_masked = table.possible != mask::full(table.signals);
        let has = |heard: u32, waiting: u16| {
            self.before.iter().any(|watch| (watch.heard, watch.waiting) == (heard, waiting))
        };
        vec![
            (self.own() == 0, "with the number 0"),
            (self.own() == 65535, "with the number 65535"),
            (has_others, "with other bytes in free slots"),
            (is_masked, "with impossible events"),
            (has(4_294_967_295, 0), "with 4294967295 heard, 0 waiting"),
            (has(4_294_967_294, 0), "with 4294967294 heard, 0 waiting"),
            (has(4_294_967_294, 1), "with 4294967294 heard, 1 waiting"),
            (has(4_294_967_263, 32), "with 4294967263 heard, 32 waiting"),
        ]
    }
}

/// No further event of this tunnel could be counted.
fn had_its_last_event(tunnel: &Tunnel) -> bool {
    tunnel.total() == EVENT_LIMIT
}
