//! A table's bytes with an opening in hand, as a run and the calls over a desk take them: the bytes
//! may have changed since they were opened, and the opening may be any number.

use crate::mask::{self, Mask};
use crate::refusal::Refusal;
use crate::table::{row_length, RunResult, Verdict, HEADER_LENGTH, NO_SUCCESSOR};

/// Bytes of the length that a table of the opening's counts has. Nothing else of them is checked.
#[derive(Clone, Copy, Debug)]
pub struct Counted<'a> {
    bytes: &'a [u8],
    /// The number of the opening.
    pub number: u16,
    pub signals: u8,
    pub states: u16,
    /// The mask of the events that can happen, as the row of state 0 says.
    pub possible: Mask,
}

/// Why a step over such bytes is refused.
#[derive(Clone, Copy, Debug, PartialEq, Eq)]
pub enum Halt {
    NoState,
    NoEvent,
    ImpossibleEvent,
    MissingSuccessor,
    SuccessorPastTheStates,
    /// Of the given state or of its successor.
    NoVerdict,
}

impl Halt {
    /// By 12 and 13 as a run is, and by 14 for what is none of a table's.
    pub fn refusal(self) -> Refusal {
        let number = match self {
            Halt::NoState => 13,
            Halt::NoEvent | Halt::ImpossibleEvent => 12,
            Halt::MissingSuccessor | Halt::SuccessorPastTheStates | Halt::NoVerdict => 14,
        };
        Refusal::new(number, 0)
    }
}

impl<'a> Counted<'a> {
    /// The opening is signals * 2^32 + number * 65536 + states. None where the counts are no
    /// table's, or the bytes have not its length.
    pub fn new(bytes: &'a [u8], opened: u64) -> Option<Self> {
        let signals =
            u8::try_from(opened >> 32).ok().filter(|signals| (1..=4).contains(signals))?;
        let states = Some(opened as u16).filter(|states| (1..=256).contains(states))?;
        let length = HEADER_LENGTH + usize::from(states) * row_length(signals);
        if bytes.len() != length {
            return None;
        }
        let number = number_of(opened);
        let mut counted = Counted { bytes, number, signals, states, possible: 0 };
        let can_happen = |event: &u8| counted.successor(0, *event) != NO_SUCCESSOR;
        counted.possible = mask::of((0..1 << signals).filter(can_happen));
        Some(counted)
    }

    /// One event read in one state; a run's answer but for the count, which is left out.
    pub fn step(&self, state: u16, event: u8) -> Result<RunResult, Halt> {
        if state >= self.states {
            return Err(Halt::NoState);
        }
        if event >= 1 << self.signals {
            return Err(Halt::NoEvent);
        }
        if !mask::has(self.possible, event) {
            return Err(Halt::ImpossibleEvent);
        }
        let end_state = match self.successor(state, event) {
            NO_SUCCESSOR => return Err(Halt::MissingSuccessor),
            past if past >= self.states => return Err(Halt::SuccessorPastTheStates),
            successor => successor,
        };
        let [Some(_), Some(verdict)] = [state, end_state].map(|state| self.verdict(state)) else {
            return Err(Halt::NoVerdict);
        };
        Ok(RunResult { end_state, verdict, count: None })
    }

    /// What a state shows, if its byte is a verdict.
    pub fn verdict(&self, state: u16) -> Option<Verdict> {
        Verdict::from_byte(self.row(state)[4])
    }

    fn row(&self, state: u16) -> &[u8] {
        &self.bytes[HEADER_LENGTH + usize::from(state) * row_length(self.signals)..]
    }

    fn successor(&self, state: u16, event: u8) -> u16 {
        let place = 5 + 2 * usize::from(event);
        u16::from_le_bytes([self.row(state)[place], self.row(state)[place + 1]])
    }
}

/// The opening with a number, of a table with so many signals and states.
pub fn opened(signals: u8, number: u16, states: usize) -> u64 {
    u64::from(signals) << 32 | u64::from(number) << 16 | states as u64
}

/// The number of an opening; of any other value what stands in its place.
pub fn number_of(opened: u64) -> u16 {
    (opened >> 16) as u16
}

#[cfg(test)]
mod tests {
    use super::*;
    use crate::rng::Rng;
    use crate::table::Monitor;
    use crate::vectors::table_samples::{masked, p12, p12_apart, random_small_monitor};

    fn opened_of(monitor: &Monitor, number: u16) -> u64 {
        opened(monitor.signals, number, monitor.states.len())
    }

    /// P12, two signals and three states, opened with the number 513.
    const P12: u64 = 2 * (1 << 32) + 513 * 65536 + 3;

    #[test]
    fn openings_that_are_no_tables_and_other_lengths_are_refused() {
        let table = p12().to_bytes();
        assert_eq!(opened_of(&p12(), 513), P12);
        let fits = |opened: u64| Counted::new(&table, opened).is_some();
        assert!(fits(P12));
        let others = [0, 3, P12 - 1, P12 + 1, P12 - 3, 131_075, P12 - (1 << 32), 14 << 56];
        for other in others.into_iter().chain([u64::MAX]) {
            assert!(!fits(other), "{other}");
        }
        for bit in (0..16).chain(32..64) {
            assert!(!fits(P12 ^ 1 << bit), "bit {bit}");
        }
        for length in (0..table.len()).chain([table.len() + 1]) {
            let bytes = [&table[..], &[0]].concat();
            assert!(Counted::new(&bytes[..length], P12).is_none());
        }
    }

    #[test]
    fn the_number_is_in_bits_16_to_31_and_may_be_any() {
        let table = p12().to_bytes();
        for number in [0, 1, 2, 255, 256, 513, 32768, 65535] {
            let counted = Counted::new(&table, opened_of(&p12(), number)).unwrap();
            assert_eq!((counted.number, counted.signals, counted.states), (number, 2, 3));
        }
        for bit in 16..32 {
            assert_eq!(Counted::new(&table, P12 ^ 1 << bit).unwrap().number, 513 ^ 1 << (bit - 16));
        }
        assert_eq!(number_of(u64::MAX), 65535);
        assert_eq!(number_of(14 << 56), 0);
    }

    #[test]
    fn five_signals_and_257_states_are_no_tables() {
        let bytes = vec![0; HEADER_LENGTH + 257 * row_length(5)];
        let fits = |signals: u8, states: usize| {
            let length = HEADER_LENGTH + states * row_length(signals);
            Counted::new(&bytes[..length], opened(signals, 9, states)).is_some()
        };
        assert!(fits(4, 256) && fits(1, 1));
        assert!(!fits(5, 256) && !fits(4, 257) && !fits(0, 1) && !fits(1, 0));
    }

    #[test]
    fn over_a_good_table_a_step_is_a_run_over_one_event() {
        let mut rng = Rng::new(61);
        for _ in 0..200 {
            let monitor = random_small_monitor(&mut rng, 12);
            let monitor = masked(&mut rng, monitor);
            let table = monitor.to_bytes();
            let counted = Counted::new(&table, opened_of(&monitor, 7)).unwrap();
            assert_eq!(counted.possible, monitor.possible());
            for (state, event) in (0..14).flat_map(|state| (0..18).map(move |e| (state, e))) {
                let run = monitor.run(state, &[event]);
                let run = run.map(|end| RunResult { count: None, ..end });
                assert_eq!(counted.step(state, event).map_err(Halt::refusal), run);
            }
        }
    }

    #[test]
    fn what_no_table_has_is_refused_where_it_is_read() {
        let table = p12_apart().to_bytes();
        let step = |changes: &[(usize, u8)], state, event| {
            let mut bytes = table.clone();
            changes.iter().for_each(|&(place, byte)| bytes[place] = byte);
            Counted::new(&bytes, P12).unwrap().step(state, event).map(|end| end.end_state)
        };
        assert_eq!(step(&[], 0, 1), Ok(1));
        assert_eq!(step(&[], 0, 3), Err(Halt::ImpossibleEvent));
        assert_eq!(step(&[], 0, 4), Err(Halt::NoEvent));
        assert_eq!(step(&[], 3, 4), Err(Halt::NoState));
        // A row has 13 bytes; that of state 1 begins at 20.
        let (verdict, successor) = (20 + 4, 20 + 5);
        assert_eq!(step(&[(verdict, 4)], 1, 0), Err(Halt::NoVerdict));
        assert_eq!(step(&[(verdict, 4)], 0, 1), Err(Halt::NoVerdict));
        assert_eq!(step(&[(verdict, 4)], 0, 0), Ok(0));
        assert_eq!(step(&[(successor, 3)], 1, 0), Err(Halt::SuccessorPastTheStates));
        let missing = [(successor, 255), (successor + 1, 255)];
        assert_eq!(step(&missing, 1, 0), Err(Halt::MissingSuccessor));
        assert_eq!(step(&missing, 1, 2), Ok(0));
    }

    #[test]
    fn the_numbers_of_a_halt() {
        let halts = [Halt::NoState, Halt::NoEvent, Halt::ImpossibleEvent];
        assert_eq!(halts.map(|halt| halt.refusal().number), [13, 12, 12]);
        let halts = [Halt::MissingSuccessor, Halt::SuccessorPastTheStates, Halt::NoVerdict];
        assert_eq!(halts.map(|halt| halt.refusal()), [Refusal::new(14, 0); 3]);
    }
}
