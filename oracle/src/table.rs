//! Table files and runs: a monitor has one state per table row.

use std::fmt;

use crate::mask::{self, Mask};
use crate::record;
use crate::refusal::Refusal;

pub const HEADER_KIND: u16 = 512;
pub const STATE_KIND: u16 = 513;
pub const HEADER_LENGTH: usize = 7;
/// What is written for the successor of an event that cannot happen.
pub const NO_SUCCESSOR: u16 = 65535;

#[derive(Clone, Copy, Debug, PartialEq, Eq)]
pub enum Verdict {
    Undecided,
    Satisfied,
    Violated,
    Moot,
}

impl Verdict {
    pub const DECIDED: [Verdict; 3] = [Verdict::Satisfied, Verdict::Violated, Verdict::Moot];

    pub fn from_byte(byte: u8) -> Option<Self> {
        match byte {
            0 => Some(Verdict::Undecided),
            1 => Some(Verdict::Satisfied),
            2 => Some(Verdict::Violated),
            3 => Some(Verdict::Moot),
            _ => None,
        }
    }

    pub fn to_byte(self) -> u8 {
        self as u8
    }
}

impl fmt::Display for Verdict {
    fn fmt(&self, out: &mut fmt::Formatter<'_>) -> fmt::Result {
        out.write_str(match self {
            Verdict::Undecided => "undecided",
            Verdict::Satisfied => "satisfied",
            Verdict::Violated => "violated",
            Verdict::Moot => "moot",
        })
    }
}

/// One row: the verdict and the successor for each event, from 0 upward; `NO_SUCCESSOR`
/// where the event cannot happen.
#[derive(Clone, Debug, PartialEq, Eq)]
pub struct MonitorState {
    pub verdict: Verdict,
    pub successors: Vec<u16>,
}

impl MonitorState {
    /// The events that can happen, each with its successor.
    pub fn steps(&self) -> impl Iterator<Item = (u8, usize)> + '_ {
        let all = (0..).zip(&self.successors);
        let possible = all.filter(|&(_, &successor)| successor != NO_SUCCESSOR);
        possible.map(|(event, &successor)| (event, successor.into()))
    }
}

/// A table of the right form.
#[derive(Clone, Debug, PartialEq, Eq)]
pub struct Monitor {
    pub signals: u8,
    pub states: Vec<MonitorState>,
}

/// What a run returns. The count is that of the events read when a verdict
/// other than undecided was first shown.
#[derive(Clone, Copy, Debug, PartialEq, Eq)]
pub struct RunResult {
    pub end_state: u16,
    pub verdict: Verdict,
    pub count: Option<usize>,
}

impl fmt::Display for RunResult {
    fn fmt(&self, out: &mut fmt::Formatter<'_>) -> fmt::Result {
        write!(out, "state {} {} ", self.end_state, self.verdict)?;
        match self.count {
            Some(count) => write!(out, "{count}"),
            None => out.write_str("none"),
        }
    }
}

impl Monitor {
    pub fn open(table: &[u8]) -> Result<Self, Refusal> {
        Self::parse(table).filter(Self::has_events).ok_or(Refusal::new(14, 0))
    }

    /// None if the bytes are not exactly a table, in which each successor may be missing.
    fn parse(table: &[u8]) -> Option<Self> {
        let mut reader = TableReader { rest: table };
        reader.expect_u16(5)?;
        reader.expect_u16(HEADER_KIND)?;
        let signals = reader.u8().filter(|signals| (1..=4).contains(signals))?;
        let state_count = reader.u16().filter(|count| (1..=256).contains(count))?;
        let states = (0..state_count)
            .map(|_| reader.state(signals, state_count))
            .collect::<Option<Vec<_>>>()?;
        reader.rest.is_empty().then_some(Monitor { signals, states })
    }

    /// The same events can happen in every row, and at least one can.
    fn has_events(&self) -> bool {
        let first = &self.states[0].successors;
        let is_missing = |&successor: &u16| successor == NO_SUCCESSOR;
        let is_like_the_first = |state: &MonitorState| {
            let mut both = first.iter().zip(&state.successors);
            both.all(|(a, b)| is_missing(a) == is_missing(b))
        };
        !first.iter().all(is_missing) && self.states.iter().all(is_like_the_first)
    }

    /// Whether the bytes are no table for their missing successors alone.
    pub fn is_spoilt_by_missing_successors(table: &[u8]) -> bool {
        Self::parse(table).is_some_and(|monitor| !monitor.has_events())
    }

    /// The mask of the events that can happen.
    pub fn possible(&self) -> Mask {
        mask::of(self.states[0].steps().map(|(event, _)| event))
    }

    /// Reads every event, also those after a verdict.
    pub fn run(&self, state: u16, events: &[u8]) -> Result<RunResult, Refusal> {
        if usize::from(state) >= self.states.len() {
            return Err(Refusal::new(13, 0));
        }
        let possible = self.possible();
        let mut end_state = state;
        let mut count = self.is_decided(state).then_some(0);
        for (index, &event) in events.iter().enumerate() {
            if !mask::has(possible, event) {
                return Err(Refusal::new(12, index));
            }
            end_state = self.state(end_state).successors[usize::from(event)];
            if count.is_none() && self.is_decided(end_state) {
                count = Some(index + 1);
            }
        }
        let verdict = self.state(end_state).verdict;
        Ok(RunResult { end_state, verdict, count })
    }

    fn state(&self, number: u16) -> &MonitorState {
        &self.states[usize::from(number)]
    }

    fn is_decided(&self, number: u16) -> bool {
        self.state(number).verdict != Verdict::Undecided
    }

    /// Writes the rows as they stand, without a check.
    pub fn to_bytes(&self) -> Vec<u8> {
        let state_count = u16::try_from(self.states.len()).expect("a table counts in two bytes");
        let [count_low, count_high] = state_count.to_le_bytes();
        let mut bytes = record::well_sized(HEADER_KIND, &[self.signals, count_low, count_high]);
        for state in &self.states {
            let mut body = vec![state.verdict.to_byte()];
            body.extend(state.successors.iter().flat_map(|successor| successor.to_le_bytes()));
            bytes.extend(record::well_sized(STATE_KIND, &body));
        }
        bytes
    }
}

/// The bytes of a row for this many signals.
pub fn row_length(signals: u8) -> usize {
    5 + (2 << signals)
}

struct TableReader<'a> {
    rest: &'a [u8],
}

impl TableReader<'_> {
    fn u8(&mut self) -> Option<u8> {
        let (&byte, rest) = self.rest.split_first()?;
        self.rest = rest;
        Some(byte)
    }

    fn u16(&mut self) -> Option<u16> {
        let (&bytes, rest) = self.rest.split_first_chunk()?;
        self.rest = rest;
        Some(u16::from_le_bytes(bytes))
    }

    fn expect_u16(&mut self, expected: u16) -> Option<()> {
        (self.u16()? == expected).then_some(())
    }

    fn state(&mut self, signals: u8, state_count: u16) -> Option<MonitorState> {
        let event_count = 1u16 << signals;
        self.expect_u16(3 + 2 * event_count)?;
        self.expect_u16(STATE_KIND)?;
        let verdict = Verdict::from_byte(self.u8()?)?;
        let successors = (0..event_count)
            .map(|_| self.u16().filter(|&next| next < state_count || next == NO_SUCCESSOR))
            .collect::<Option<Vec<_>>>()?;
        Some(MonitorState { verdict, successors })
    }
}

#[cfg(test)]
mod tests {
    use super::*;

    fn monitor(signals: u8, rows: &[(Verdict, &[u16])]) -> Monitor {
        let states = rows
            .iter()
            .map(|&(verdict, successors)| MonitorState { verdict, successors: successors.to_vec() })
            .collect();
        Monitor { signals, states }
    }

    fn p3() -> Monitor {
        let rows: &[(Verdict, &[u16])] = &[
            (Verdict::Undecided, &[1, 2]),
            (Verdict::Violated, &[1, 1]),
            (Verdict::Satisfied, &[2, 2]),
        ];
        monitor(1, rows)
    }

    fn p12() -> Monitor {
        let rows: &[(Verdict, &[u16])] = &[
            (Verdict::Undecided, &[0, 1, 0, 1]),
            (Verdict::Undecided, &[1, 2, 0, 1]),
            (Verdict::Violated, &[2, 2, 2, 2]),
        ];
        monitor(2, rows)
    }

    #[test]
    fn p3_has_34_bytes_and_the_printed_beginning() {
        let table = p3().to_bytes();
        assert_eq!(table.len(), 34);
        assert_eq!(table[..7], [5, 0, 0, 2, 1, 3, 0]);
        assert_eq!(table[7..16], [7, 0, 1, 2, 0, 1, 0, 2, 0]);
        assert_eq!(Monitor::open(&table), Ok(p3()));
    }

    #[test]
    fn a_table_has_the_length_of_document_01() {
        for (monitor, signals) in [(p3(), 1), (p12(), 2)] {
            let length = HEADER_LENGTH + monitor.states.len() * row_length(signals);
            assert_eq!(monitor.to_bytes().len(), length);
        }
        assert_eq!(HEADER_LENGTH + 244 * row_length(3), 5131);
        assert_eq!(HEADER_LENGTH + 256 * row_length(4), 9479);
    }

    #[test]
    fn p12_runs_as_document_01_says() {
        let violated = p12().run(0, &[1, 0, 1]).unwrap();
        assert_eq!(violated.to_string(), "state 2 violated 3");
        let undecided = p12().run(0, &[1, 2, 1]).unwrap();
        assert_eq!(undecided.to_string(), "state 1 undecided none");
    }

    #[test]
    fn an_empty_list_returns_the_given_state() {
        assert_eq!(p3().run(0, &[]).unwrap().to_string(), "state 0 undecided none");
        assert_eq!(p3().run(2, &[]).unwrap().to_string(), "state 2 satisfied 0");
    }

    #[test]
    fn the_count_stays_at_the_first_verdict() {
        let rows: &[(Verdict, &[u16])] = &[(Verdict::Undecided, &[1, 1]), (Verdict::Moot, &[0, 0])];
        let run = monitor(1, rows).run(0, &[0, 0, 0, 0]).unwrap();
        assert_eq!(run.to_string(), "state 0 undecided 1");
    }

    #[test]
    fn a_run_checks_13_before_12_and_reads_past_a_verdict() {
        assert_eq!(p3().run(3, &[9]), Err(Refusal::new(13, 0)));
        assert_eq!(p3().run(0, &[0, 0, 2, 9]), Err(Refusal::new(12, 2)));
    }

    #[test]
    fn opening_refuses_each_cut_and_a_byte_too_many() {
        let table = p3().to_bytes();
        for length in 0..table.len() {
            assert_eq!(Monitor::open(&table[..length]), Err(Refusal::new(14, 0)));
        }
        assert!(Monitor::open(&[&table[..], &[0]].concat()).is_err());
    }

    #[test]
    fn opening_refuses_a_bad_verdict_and_a_bad_successor() {
        let changed = |place: usize, value: u8| {
            let mut table = p3().to_bytes();
            table[place] = value;
            Monitor::open(&table)
        };
        assert!(changed(11, 3).is_ok());
        assert!(changed(11, 4).is_err());
        assert!(changed(12, 2).is_ok());
        assert!(changed(12, 3).is_err());
        assert!(changed(13, 1).is_err());
    }

    /// P12 where p and q never come together.
    fn p12_apart() -> Monitor {
        let rows: &[(Verdict, &[u16])] = &[
            (Verdict::Undecided, &[0, 1, 0, 65535]),
            (Verdict::Undecided, &[1, 2, 0, 65535]),
            (Verdict::Violated, &[2, 2, 2, 65535]),
        ];
        monitor(2, rows)
    }

    #[test]
    fn impossible_events_are_read_from_the_rows() {
        let table = p12_apart().to_bytes();
        assert_eq!(table[7..20], [11, 0, 1, 2, 0, 0, 0, 1, 0, 0, 0, 255, 255]);
        let opened = Monitor::open(&table).unwrap();
        assert_eq!(opened, p12_apart());
        assert_eq!((opened.possible(), p12().possible()), (7, 15));
        assert_eq!(opened.states[1].steps().collect::<Vec<_>>(), [(0, 1), (1, 2), (2, 0)]);
        let one_left = monitor(1, &[(Verdict::Moot, &[65535, 0])]);
        assert_eq!(Monitor::open(&one_left.to_bytes()), Ok(one_left));
    }

    #[test]
    fn a_missing_successor_is_missing_in_every_row_and_not_for_every_event() {
        let changed = |changes: &[(usize, usize, u16)]| {
            let mut monitor = p12_apart();
            for &(state, event, successor) in changes {
                monitor.states[state].successors[event] = successor;
            }
            let table = monitor.to_bytes();
            let refused = Monitor::open(&table).is_err();
            assert_eq!(Monitor::is_spoilt_by_missing_successors(&table), refused);
            refused
        };
        assert!(!changed(&[]));
        for state in 0..3 {
            assert!(changed(&[(state, 3, 0)]));
            assert!(changed(&[(state, 0, 65535)]));
            assert!(changed(&[(state, 3, 2), (state, 1, 65535)]));
            let all = [0, 1, 2].map(|event| (state, event, 65535));
            assert!(changed(&all));
        }
        let column = |event| [0, 1, 2].map(|state| (state, event, 65535));
        assert!(!changed(&column(0)));
        assert!(!changed(&[column(0), column(2)].concat()));
        assert!(changed(&[column(0), column(1), column(2)].concat()));
        let mut near = p12_apart();
        for successor in [65534, 0x00ff, 0xff00, 256, 3] {
            near.states.iter_mut().for_each(|state| state.successors[3] = successor);
            assert!(Monitor::open(&near.to_bytes()).is_err());
            assert!(!Monitor::is_spoilt_by_missing_successors(&near.to_bytes()));
        }
    }

    #[test]
    fn a_run_over_an_impossible_event_is_refused_also_past_a_verdict() {
        let refusal = |state, events: &[u8]| p12_apart().run(state, events).unwrap_err();
        assert_eq!(p12_apart().run(0, &[1, 0, 1]).unwrap().to_string(), "state 2 violated 3");
        assert_eq!(refusal(0, &[3]), Refusal::new(12, 0));
        assert_eq!(refusal(0, &[1, 0, 1, 2, 3, 0]), Refusal::new(12, 4));
        assert_eq!(refusal(2, &[0, 3, 4]), Refusal::new(12, 1));
        assert_eq!(refusal(0, &[0, 4, 3]), Refusal::new(12, 1));
        assert_eq!(refusal(3, &[3]), Refusal::new(13, 0));
    }
}
