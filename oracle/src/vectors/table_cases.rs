//! The cases of the table file stream.

use super::table_faults;
use super::table_samples as samples;
use super::{append_counted, Case};
use crate::mask;
use crate::random_masks::Leaving;
use crate::refusal::Refusal;
use crate::rng::Rng;
use crate::table::{Monitor, Verdict, NO_SUCCESSOR};

const SEED: u64 = 0x5eed_0000_0000_0002;
const LONGEST_TABLE: usize = 9600;
const MOST_EVENTS: usize = 4096;

pub struct TableCase {
    pub table: Vec<u8>,
    pub state: u16,
    pub events: Vec<u8>,
}

impl Case for TableCase {
    fn append_to(&self, stream: &mut Vec<u8>) {
        append_counted(stream, &self.table);
        stream.extend(self.state.to_le_bytes());
        append_counted(stream, &self.events);
    }

    fn expected_line(&self) -> String {
        let monitor = match Monitor::open(&self.table) {
            Ok(monitor) => monitor,
            Err(refusal) => return refusal.to_string(),
        };
        let outcome = match monitor.run(self.state, &self.events) {
            Ok(result) => result.to_string(),
            Err(refusal) => refusal.to_string(),
        };
        let state_count = monitor.states.len();
        format!("table {} {state_count}: {outcome} rewritten", monitor.signals)
    }

    fn brought_by_masks(&self) -> Option<&'static str> {
        if Monitor::is_spoilt_by_missing_successors(&self.table) {
            return Some("14 by missing successors");
        }
        let monitor = Monitor::open(&self.table).ok()?;
        let refusal = monitor.run(self.state, &self.events).err()?;
        let is_event = |index: usize| self.events[index] < 1 << monitor.signals;
        (refusal.number == 12 && is_event(refusal.place)).then_some("12 by an impossible event")
    }
}

/// Gathers cases. A case made for one answer is held against the reader.
struct TableCases {
    rng: Rng,
    cases: Vec<TableCase>,
}

/// Every case, always the same ones.
pub fn all() -> Vec<TableCase> {
    let mut gathered = TableCases { rng: Rng::new(SEED), cases: Vec::new() };
    gathered.add_document_runs();
    gathered.add_verdict_times();
    gathered.add_random_runs();
    gathered.add_long_runs();
    gathered.add_largest_tables();
    gathered.add_spoilt_tables();
    gathered.add_truncations();
    gathered.add_changed_tables();
    gathered.add_bad_states();
    gathered.add_bad_events();
    gathered.add_events_past_a_verdict();
    gathered.add_double_faults();
    gathered.add_masked_runs();
    gathered.add_masked_verdict_times();
    gathered.add_largest_masked_tables();
    gathered.add_impossible_events();
    gathered.add_impossible_events_past_a_verdict();
    gathered.add_long_masked_runs();
    gathered.add_missing_successors();
    gathered.add_changed_columns();
    gathered.cases
}

impl TableCases {
    fn add(&mut self, table: Vec<u8>, state: u16, events: Vec<u8>) {
        assert!(table.len() <= LONGEST_TABLE && events.len() <= MOST_EVENTS);
        self.cases.push(TableCase { table, state, events });
    }

    /// Adds a run that must end with this answer.
    fn add_answered(&mut self, monitor: &Monitor, state: u16, events: &[u8], answer: &str) {
        let outcome = monitor.run(state, events).map(|result| result.to_string());
        assert_eq!(outcome, Ok(answer.to_string()));
        self.add(monitor.to_bytes(), state, events.to_vec());
    }

    /// Adds a run that must be refused.
    fn add_refused_run(
        &mut self,
        monitor: &Monitor,
        state: u16,
        events: Vec<u8>,
        refusal: Refusal,
    ) {
        assert_eq!(monitor.run(state, &events), Err(refusal));
        self.add(monitor.to_bytes(), state, events);
    }

    /// Adds bytes that are no table, with any state and events.
    fn add_refused_table(&mut self, table: Vec<u8>) {
        assert_eq!(Monitor::open(&table), Err(Refusal::new(14, 0)), "{table:02x?}");
        let state = *self.rng.pick(&[0, 0, 0, 1, 256, 65535]);
        let count = self.rng.below(6);
        let events = if self.rng.chance(70) { vec![0; count] } else { self.rng.bytes(count) };
        self.add(table, state, events);
    }

    fn random_state(&mut self, monitor: &Monitor) -> u16 {
        self.rng.below(monitor.states.len()) as u16
    }

    fn add_document_runs(&mut self) {
        let (p3, p12) = (samples::p3(), samples::p12());
        self.add_answered(&p12, 0, &[1, 0, 1], "state 2 violated 3");
        self.add_answered(&p12, 0, &[1, 2, 1], "state 1 undecided none");
        self.add_answered(&p3, 0, &[], "state 0 undecided none");
        self.add_answered(&p3, 0, &[0], "state 1 violated 1");
        self.add_answered(&p3, 0, &[1], "state 2 satisfied 1");
        self.add_answered(&p3, 0, &[1, 0, 0], "state 2 satisfied 1");
        self.add_answered(&p3, 1, &[1], "state 1 violated 0");
        for monitor in samples::document_monitors() {
            for state in 0..monitor.states.len() as u16 {
                self.add(monitor.to_bytes(), state, Vec::new());
                let events = samples::random_events(&mut self.rng, &monitor, 6);
                self.add(monitor.to_bytes(), state, events);
            }
        }
    }

    /// Verdicts at once, later, with the last event, or never.
    fn add_verdict_times(&mut self) {
        for signals in 1..=4 {
            for verdict in Verdict::DECIDED {
                let chain = samples::chain(signals, 4, verdict);
                let moving = vec![(1 << signals) - 1; 5];
                self.add_answered(&chain, 3, &[], &format!("state 3 {verdict} 0"));
                self.add_answered(&chain, 3, &moving, &format!("state 3 {verdict} 0"));
                self.add_answered(&chain, 0, &moving, &format!("state 3 {verdict} 3"));
                self.add_answered(&chain, 2, &[0, 0, 0, 0, 1], &format!("state 3 {verdict} 5"));
                self.add_answered(&chain, 1, &[0, 1, 0, 0, 0], "state 2 undecided none");
                self.add_answered(&chain, 2, &[], "state 2 undecided none");
            }
        }
    }

    fn add_random_runs(&mut self) {
        for (rounds, limit) in [(200, 6), (150, 16), (50, 40)] {
            for _ in 0..rounds {
                let monitor = samples::random_small_monitor(&mut self.rng, limit);
                let state = self.random_state(&monitor);
                let count = self.rng.below(20);
                let events = samples::random_events(&mut self.rng, &monitor, count);
                self.add(monitor.to_bytes(), state, events);
            }
        }
    }

    fn add_long_runs(&mut self) {
        for _ in 0..12 {
            let monitor = samples::random_small_monitor(&mut self.rng, 12);
            let state = self.random_state(&monitor);
            let count = self.rng.between(2000, MOST_EVENTS);
            let events = samples::random_events(&mut self.rng, &monitor, count);
            self.add(monitor.to_bytes(), state, events);
        }
        let mut events = vec![0; MOST_EVENTS];
        let chain = samples::chain(1, 2, Verdict::Violated);
        self.add_answered(&chain, 0, &events, "state 0 undecided none");
        events[MOST_EVENTS - 1] = 1;
        self.add_answered(&chain, 0, &events, "state 1 violated 4096");
        events[300] = 1;
        self.add_answered(&chain, 0, &events, "state 1 violated 301");
        events[MOST_EVENTS - 1] = 2;
        self.add_refused_run(&chain, 0, events, Refusal::new(12, MOST_EVENTS - 1));
    }

    fn add_largest_tables(&mut self) {
        for signals in [1, 4] {
            let events = vec![1; 300];
            let chain = samples::chain(signals, 256, Verdict::Satisfied);
            self.add_answered(&chain, 0, &events, "state 255 satisfied 255");
            self.add_answered(&chain, 254, &[0], "state 254 undecided none");
            self.add_answered(&chain, 255, &[], "state 255 satisfied 0");
            self.add_refused_run(&chain, 256, events, Refusal::new(13, 0));
            let mut table = chain.to_bytes();
            let last_successor = table.len() - 2;
            table[last_successor..].copy_from_slice(&[0, 1]);
            self.add_refused_table(table);
        }
        for signals in 1..=4 {
            let monitor = samples::random_monitor(&mut self.rng, signals, 256, 97);
            let events = samples::random_events(&mut self.rng, &monitor, 200);
            self.add(monitor.to_bytes(), 0, events);
        }
    }

    fn add_spoilt_tables(&mut self) {
        let sizes = [(1, 3), (2, 5), (3, 2), (4, 3), (1, 1)];
        for (signals, state_count) in sizes {
            let monitor = samples::random_monitor(&mut self.rng, signals, state_count, 70);
            for table in table_faults::spoilt_tables(&monitor) {
                self.add_refused_table(table);
            }
        }
        for table in table_faults::out_of_bounds() {
            self.add_refused_table(table);
        }
    }

    fn add_truncations(&mut self) {
        for monitor in [samples::p3(), samples::p12()] {
            let table = monitor.to_bytes();
            for length in 0..table.len() {
                self.add_refused_table(table[..length].to_vec());
            }
        }
    }

    /// Good tables with one byte changed; some stay good.
    fn add_changed_tables(&mut self) {
        for _ in 0..250 {
            let monitor = samples::random_small_monitor(&mut self.rng, 6);
            let mut table = monitor.to_bytes();
            let place = self.rng.below(table.len());
            let small = self.rng.chance(70);
            table[place] = self.rng.byte_below(if small { 8 } else { 256 });
            let state = self.random_state(&monitor);
            let events = (0..5).map(|_| self.rng.byte_below(2)).collect();
            self.add(table, state, events);
        }
    }

    /// Refusal 13, with and without a bad event, which does not matter.
    fn add_bad_states(&mut self) {
        for _ in 0..20 {
            let monitor = samples::random_small_monitor(&mut self.rng, 10);
            let state_count = monitor.states.len() as u16;
            for state in [state_count, state_count + 1, 256, state_count + 255, 65535] {
                let count = self.rng.below(4);
                let events = self.rng.bytes(count);
                self.add_refused_run(&monitor, state, events, Refusal::new(13, 0));
            }
        }
    }

    /// Refusal 12 at the first, a middle or the last event, and twice.
    fn add_bad_events(&mut self) {
        for _ in 0..25 {
            let monitor = samples::random_small_monitor(&mut self.rng, 8);
            let state = self.random_state(&monitor);
            let count = self.rng.between(1, 12);
            let good = samples::random_events(&mut self.rng, &monitor, count);
            let lowest_bad = 1 << monitor.signals;
            let any_bad = self.rng.between(lowest_bad, 255) as u8;
            for place in [0, count / 2, count - 1] {
                let mut events = good.clone();
                events[place] = *self.rng.pick(&[lowest_bad as u8, any_bad, 128, 255]);
                if self.rng.chance(50) {
                    events.extend([any_bad, 0, 255]);
                }
                self.add_refused_run(&monitor, state, events, Refusal::new(12, place));
            }
        }
    }

    /// A bad event is refused also after a verdict has been shown.
    fn add_events_past_a_verdict(&mut self) {
        for signals in 1..=4 {
            let bad = 1 << signals;
            for verdict in Verdict::DECIDED {
                let chain = samples::chain(signals, 3, verdict);
                for (state, events) in
                    [(2, vec![bad]), (0, vec![1, 1, bad]), (1, vec![1, 0, bad, 255])]
                {
                    let place = events.iter().position(|&event| event == bad).unwrap();
                    self.add_refused_run(&chain, state, events, Refusal::new(12, place));
                }
            }
        }
    }

    /// 13 comes before 12, and 14 before both.
    fn add_double_faults(&mut self) {
        for signals in 1..=4 {
            for state in [4, 5, 256, 260, 65535] {
                let chain = samples::chain(signals, 4, Verdict::Moot);
                let bad_events = vec![1 << signals, 255];
                self.add_refused_run(&chain, state, bad_events.clone(), Refusal::new(13, 0));
                let mut table = chain.to_bytes();
                table[11] = 4;
                assert_eq!(Monitor::open(&table), Err(Refusal::new(14, 0)));
                self.add(table, state, bad_events);
            }
        }
    }

    /// A monitor of 1 to `limit` states in which any events can happen.
    fn random_masked(&mut self, limit: usize) -> Monitor {
        let monitor = samples::random_small_monitor(&mut self.rng, limit);
        samples::masked(&mut self.rng, monitor)
    }

    /// One with an event that cannot happen.
    fn random_partial(&mut self, limit: usize) -> Monitor {
        loop {
            let monitor = self.random_masked(limit);
            if !samples::impossible_events(&monitor).is_empty() {
                return monitor;
            }
        }
    }

    /// Over possible events a table with a mask runs like any other.
    fn add_masked_runs(&mut self) {
        let apart = samples::p12_apart();
        self.add_answered(&apart, 0, &[1, 0, 1], "state 2 violated 3");
        self.add_answered(&apart, 0, &[1, 2, 1], "state 1 undecided none");
        self.add_answered(&apart, 1, &[2, 2, 1, 1, 0], "state 2 violated 4");
        for monitor in samples::document_monitors() {
            for mask in 1..=mask::full(monitor.signals) {
                let monitor = samples::leaving(monitor.clone(), mask);
                let state = self.random_state(&monitor);
                let events = samples::random_events(&mut self.rng, &monitor, 6);
                self.add(monitor.to_bytes(), state, events);
            }
        }
        for (rounds, limit) in [(200, 6), (100, 16), (30, 40)] {
            for _ in 0..rounds {
                let monitor = self.random_masked(limit);
                let state = self.random_state(&monitor);
                let count = self.rng.below(20);
                let events = samples::random_events(&mut self.rng, &monitor, count);
                self.add(monitor.to_bytes(), state, events);
            }
        }
    }

    /// Verdicts at once, later, with the last event, or never, where event 0 stays and the last
    /// event moves on, and others cannot happen.
    fn add_masked_verdict_times(&mut self) {
        for signals in 2..=4 {
            for verdict in Verdict::DECIDED {
                let last = (1 << signals) - 1;
                let chain = samples::leaving(samples::chain(signals, 4, verdict), 1 | 1 << last);
                self.add_answered(&chain, 3, &[], &format!("state 3 {verdict} 0"));
                self.add_answered(&chain, 0, &[last; 5], &format!("state 3 {verdict} 3"));
                self.add_answered(&chain, 2, &[0, 0, 0, last], &format!("state 3 {verdict} 4"));
                self.add_answered(&chain, 1, &[0, last, 0, 0], "state 2 undecided none");
                let moving = samples::leaving(samples::chain(signals, 4, verdict), 1 << last);
                self.add_answered(&moving, 1, &[last; 9], &format!("state 3 {verdict} 2"));
            }
        }
    }

    /// 256 states, with one event left, the first or the last, with two, and with all but one.
    fn add_largest_masked_tables(&mut self) {
        for signals in [1, 4] {
            let chain = samples::chain(signals, 256, Verdict::Satisfied);
            let last = (1u8 << signals) - 1;
            let moving = samples::leaving(chain.clone(), 1 << last);
            self.add_answered(&moving, 0, &[last; 300], "state 255 satisfied 255");
            self.add_refused_run(&moving, 255, vec![last, 0], Refusal::new(12, 1));
            let staying = samples::leaving(chain.clone(), 1);
            self.add_answered(&staying, 254, &[0; 4], "state 254 undecided none");
            self.add_refused_run(&staying, 0, vec![0, last], Refusal::new(12, 1));
            self.add_refused_run(&staying, 256, vec![last], Refusal::new(13, 0));
            let both = samples::leaving(chain, 1 | 1 << last);
            self.add_answered(&both, 250, &[0, last, last], "state 252 undecided none");
        }
        for mask in [0x7fff, 0xfffe, 0x00ff, 0x5555] {
            let monitor = samples::random_monitor(&mut self.rng, 4, 256, 97);
            let monitor = samples::leaving(monitor, mask);
            let events = samples::random_events(&mut self.rng, &monitor, 200);
            self.add(monitor.to_bytes(), 0, events);
            let spoilt = table_faults::missing_successors(&monitor);
            self.add_refused_table(spoilt[spoilt.len() - 1].clone());
        }
    }

    /// Refusal 12 at the first, a middle or the last event, for an event that cannot happen or
    /// for a byte that is no event, whichever comes first; and 13 before it.
    fn add_impossible_events(&mut self) {
        for _ in 0..40 {
            let monitor = self.random_partial(8);
            let state = self.random_state(&monitor);
            let impossible = *self.rng.pick(&samples::impossible_events(&monitor));
            let no_event = self.rng.between(1 << monitor.signals, 255) as u8;
            let count = self.rng.between(1, 12);
            let good = samples::random_events(&mut self.rng, &monitor, count);
            for place in [0, count / 2, count - 1] {
                let mut events = good.clone();
                events[place] = impossible;
                let later = [[impossible, no_event], [no_event, impossible]];
                if self.rng.chance(60) {
                    events.extend(self.rng.pick(&later));
                }
                self.add_refused_run(&monitor, state, events, Refusal::new(12, place));
            }
            let mut events = [&good[..], &[no_event, impossible]].concat();
            self.add_refused_run(&monitor, state, events.clone(), Refusal::new(12, count));
            events.swap(count, count + 1);
            let too_large = monitor.states.len() as u16;
            self.add_refused_run(&monitor, state, events.clone(), Refusal::new(12, count));
            self.add_refused_run(&monitor, too_large, events, Refusal::new(13, 0));
        }
    }

    fn add_impossible_events_past_a_verdict(&mut self) {
        for signals in 1..=4 {
            let last = (1 << signals) - 1;
            for verdict in Verdict::DECIDED {
                let chain = samples::leaving(samples::chain(signals, 3, verdict), 1 << last);
                for (state, moves) in [(2, 0), (0, 2), (0, 7), (1, 1)] {
                    let events = [&vec![last; moves][..], &[0, last, 255]].concat();
                    self.add_refused_run(&chain, state, events, Refusal::new(12, moves));
                }
            }
        }
    }

    fn add_long_masked_runs(&mut self) {
        let chain = samples::leaving(samples::chain(2, 2, Verdict::Violated), 0b0101);
        let mut events = vec![0; MOST_EVENTS];
        self.add_answered(&chain, 0, &events, "state 0 undecided none");
        events[MOST_EVENTS - 1] = 2;
        self.add_answered(&chain, 0, &events, "state 1 violated 4096");
        for (event, place) in [(1, MOST_EVENTS - 1), (3, MOST_EVENTS - 2), (4, 300), (1, 299)] {
            events[place] = event;
            self.add_refused_run(&chain, 0, events.clone(), Refusal::new(12, place));
        }
        for count in [MOST_EVENTS - 1, MOST_EVENTS] {
            let monitor = self.random_partial(12);
            let mut events = samples::random_events(&mut self.rng, &monitor, count);
            self.add(monitor.to_bytes(), 0, events.clone());
            events[count - 1] = *self.rng.pick(&samples::impossible_events(&monitor));
            self.add_refused_run(&monitor, 0, events, Refusal::new(12, count - 1));
        }
    }

    /// Refusal 14 for 65,535 where it must not stand, or does not where it must.
    fn add_missing_successors(&mut self) {
        for (signals, states) in [(1, 1), (1, 2), (2, 1), (2, 3), (3, 5), (4, 2), (4, 1)] {
            let monitor = samples::random_monitor(&mut self.rng, signals, states, 70);
            for leaving in Leaving::EACH {
                let mask = leaving.draw(&mut self.rng, signals);
                let masked = samples::leaving(monitor.clone(), mask);
                self.add(masked.to_bytes(), 0, Vec::new());
                for table in table_faults::missing_successors(&masked) {
                    assert!(Monitor::is_spoilt_by_missing_successors(&table));
                    self.add_refused_table(table);
                }
                for table in table_faults::wrong_numbers(&masked) {
                    self.add_refused_table(table);
                }
            }
            let masked = samples::leaving(monitor, 1);
            for table in table_faults::spoilt_tables(&masked).into_iter().step_by(5) {
                self.add_refused_table(table);
            }
        }
    }

    /// Tables in which successors of one event are changed to or from 65,535, in some rows or
    /// in all; some stay good.
    fn add_changed_columns(&mut self) {
        for _ in 0..150 {
            let mut monitor = self.random_masked(5);
            let event = self.rng.below(1 << monitor.signals);
            let all = self.rng.chance(50);
            let missing = self.rng.chance(60);
            for state in &mut monitor.states {
                if all || self.rng.chance(50) {
                    state.successors[event] = if missing { NO_SUCCESSOR } else { 0 };
                }
            }
            let state = self.rng.below(monitor.states.len()) as u16;
            let events = (0..4).map(|_| self.rng.byte_below(1 << monitor.signals)).collect();
            self.add(monitor.to_bytes(), state, events);
        }
    }
}

#[cfg(test)]
mod tests {
    use super::*;

    #[test]
    fn lines_have_their_form() {
        let line =
            |table: Vec<u8>, state, events| TableCase { table, state, events }.expected_line();
        let p12 = samples::p12().to_bytes();
        assert_eq!(line(p12.clone(), 0, vec![1, 0, 1]), "table 2 3: state 2 violated 3 rewritten");
        assert_eq!(line(p12.clone(), 0, vec![1, 4]), "table 2 3: refused 12 at 1 rewritten");
        assert_eq!(line(p12, 3, vec![]), "table 2 3: refused 13 at 0 rewritten");
        assert_eq!(line(vec![], 0, vec![]), "refused 14 at 0");
    }
}
