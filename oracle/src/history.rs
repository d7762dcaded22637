//! What has happened at a desk since it was fresh, and the laws of C-15, C-16 and C-18 over it: who
//! waits is heard within as many turns as the row has tunnels, whoever else posts; a tunnel's
//! accepted events are those heard and then those that wait; its state is the end of a run from the
//! start over the events that it has heard, and it and every answer carry the number of the opening;
//! as many are counted as were heard; and what it remembers is that run's count. Where verdicts
//! last, as in every built table, it remembers one exactly while one stands.
//!
//! A history is told what was answered, and knows nothing of how a desk works.

use crate::desk::{Heard, Tunnel};
use crate::table::{Monitor, MonitorState, Verdict};

pub struct History<'a> {
    monitor: &'a Monitor,
    /// The number of the opening.
    number: u16,
    tunnels: Vec<Past>,
    longest_wait: usize,
    verdicts_last: bool,
}

/// What has happened to one tunnel.
#[derive(Clone, Default)]
struct Past {
    accepted: Vec<u8>,
    /// How many of them were heard.
    heard: usize,
    /// The turns that passed since it has an event waiting and was not heard.
    passed: usize,
}

impl Past {
    fn waits(&self) -> bool {
        self.heard < self.accepted.len()
    }
}

/// The law that is broken.
pub type Broken = &'static str;

const NOT_THE_STATE: Broken = "the state is not the end of a run over the events heard";
const NOT_THE_OPENING: Broken = "the number is not that of the opening";
const NOT_AS_MANY: Broken = "the events counted are not as many as were heard";
const NOT_THE_COUNT: Broken = "what is remembered is not the count of a run over the events heard";
const NOT_WHILE_IT_STANDS: Broken = "a verdict is not remembered exactly while one stands";

fn is_decided(state: &MonitorState) -> bool {
    state.verdict != Verdict::Undecided
}

fn verdicts_last(monitor: &Monitor) -> bool {
    let stays = |state: &MonitorState| {
        state.steps().all(|(_, successor)| is_decided(&monitor.states[successor]))
    };
    monitor.states.iter().filter(|state| is_decided(state)).all(stays)
}

impl<'a> History<'a> {
    /// Of a fresh row of so many tunnels, over a table opened with a number.
    pub fn new(monitor: &'a Monitor, number: u16, row: usize) -> Self {
        let (tunnels, verdicts_last) = (vec![Past::default(); row], verdicts_last(monitor));
        History { monitor, number, tunnels, longest_wait: 0, verdicts_last }
    }

    /// No event leads from a verdict back to undecided.
    pub fn verdicts_last(&self) -> bool {
        self.verdicts_last
    }

    /// The most turns within which an event was heard.
    pub fn longest_wait(&self) -> usize {
        self.longest_wait
    }

    /// An event was accepted for a tunnel.
    pub fn posted(&mut self, number: usize, event: u8) {
        self.tunnels[number].accepted.push(event);
    }

    /// A turn was taken, which heard this or said that none waits.
    pub fn turned(&mut self, heard: Option<Heard>) -> Result<(), Broken> {
        let row = self.tunnels.len();
        let waiting = self.tunnels.iter_mut().filter(|past| past.waits());
        waiting.for_each(|past| past.passed += 1);
        match heard {
            Some(heard) => self.hear(heard)?,
            None if self.tunnels.iter().any(Past::waits) => return Err("none waits, but one does"),
            None => {}
        }
        match self.tunnels.iter().any(|past| past.passed >= row) {
            true => Err("a tunnel waits for more turns than the row has tunnels"),
            false => Ok(()),
        }
    }

    fn hear(&mut self, heard: Heard) -> Result<(), Broken> {
        let past = self.tunnels.get_mut(heard.number).ok_or("no such tunnel was heard")?;
        if past.accepted.get(past.heard) != Some(&heard.event) {
            return Err("the event heard is not the oldest that waits");
        }
        past.heard += 1;
        self.longest_wait = self.longest_wait.max(std::mem::take(&mut past.passed));
        let run = self.monitor.run(0, &past.accepted[..past.heard]);
        let end = run.map_err(|_| "an event that no run takes was heard")?;
        match (heard.state.number, heard.verdict) == (end.end_state, end.verdict) {
            true if heard.state.opening != self.number => Err(NOT_THE_OPENING),
            true => Ok(()),
            false => Err("the answer is not the end of a run over the events heard"),
        }
    }

    /// Holds a tunnel as it stands against what has happened to it.
    pub fn check(&self, number: usize, tunnel: &Tunnel) -> Result<(), Broken> {
        let Past { accepted, heard, .. } = &self.tunnels[number];
        if !tunnel.queue().eq(accepted[*heard..].iter().copied()) {
            return Err("the accepted events are not those heard and then those that wait");
        }
        let run = self.monitor.run(0, &accepted[..*heard]);
        let end = run.map_err(|_| "an event that no run takes was heard")?;
        let stands = self.monitor.states.get(usize::from(tunnel.state)).is_some_and(is_decided);
        let count = tunnel.first_verdict().map(|count| count as usize);
        let laws = [
            (self.number == tunnel.opening, NOT_THE_OPENING),
            (end.end_state == tunnel.state, NOT_THE_STATE),
            (*heard == tunnel.heard as usize, NOT_AS_MANY),
            (!self.verdicts_last || stands == count.is_some(), NOT_WHILE_IT_STANDS),
            (end.count == count, NOT_THE_COUNT),
        ];
        let broken = laws.into_iter().find(|(is_kept, _)| !is_kept);
        broken.map_or(Ok(()), |(_, law)| Err(law))
    }

    /// The same of all tunnels.
    pub fn check_all(&self, desk: &[Tunnel]) -> Result<(), Broken> {
        if desk.len() != self.tunnels.len() {
            return Err("the row has another length");
        }
        desk.iter().enumerate().try_for_each(|(number, tunnel)| self.check(number, tunnel))
    }
}

#[cfg(test)]
mod tests {
    use super::*;
    use crate::builder;
    use crate::counted::opened;
    use crate::desk;
    use crate::openings::State;
    use crate::rng::Rng;
    use crate::vectors::rule_samples::{document_rules, random_short_rule};
    use crate::vectors::table_samples::{
        document_monitors, masked, p12, p3, random_events, random_small_monitor,
    };

    /// The number of every opening.
    const NUMBER: u16 = 258;

    /// A desk, its table and what has happened at it.
    struct Driven<'a> {
        table: (&'a [u8], u64),
        desk: Vec<Tunnel>,
        history: History<'a>,
        last: usize,
        refused: usize,
    }

    impl<'a> Driven<'a> {
        fn new(monitor: &'a Monitor, bytes: &'a [u8], row: usize) -> Self {
            let table = (bytes, opened(monitor.signals, NUMBER, monitor.states.len()));
            let history = History::new(monitor, NUMBER, row);
            let mut desk = vec![Tunnel::fresh(1, Verdict::Moot); row];
            desk::fresh(&mut desk, table).unwrap();
            Driven { table, desk, history, last: usize::MAX, refused: 0 }
        }

        fn post(&mut self, number: usize, event: u8) {
            match desk::post(&mut self.desk, self.table, number, event) {
                Ok(()) => self.history.posted(number, event),
                Err(_) => self.refused += 1,
            }
        }

        /// Whether an event was heard.
        fn turn(&mut self) -> bool {
            let heard = desk::turn(&mut self.desk, self.table, self.last).unwrap();
            self.history.turned(heard).unwrap();
            self.last = heard.map_or(self.last, |heard| heard.number);
            heard.is_some()
        }
    }

    #[test]
    fn the_laws_hold_of_random_histories() {
        let mut rng = Rng::new(71);
        let (mut heard, mut refused, mut tight) = (0, 0, 0);
        let (mut at_the_start, mut later, mut never) = (0, 0, 0);
        for round in 0..300 {
            let monitor = match round % 4 {
                0 => rng.pick(&document_monitors()).clone(),
                _ => random_small_monitor(&mut rng, 9),
            };
            let monitor = masked(&mut rng, monitor);
            let bytes = monitor.to_bytes();
            let row = rng.between(1, 64);
            let mut driven = Driven::new(&monitor, &bytes, row);
            driven.history.check_all(&driven.desk).unwrap();
            let posts = *rng.pick(&[30, 50, 80, 97]);
            for _ in 0..400 {
                if rng.chance(posts) {
                    let busy = if rng.chance(50) { row } else { row.min(3) };
                    let number = rng.below(busy);
                    driven.post(number, random_events(&mut rng, &monitor, 1)[0]);
                } else {
                    heard += usize::from(driven.turn());
                }
                driven.history.check_all(&driven.desk).unwrap();
            }
            refused += driven.refused;
            tight += usize::from(driven.history.longest_wait() == row);
            for tunnel in driven.desk.iter().filter(|tunnel| tunnel.heard > 0) {
                match tunnel.first_verdict() {
                    Some(0) => at_the_start += 1,
                    Some(_) => later += 1,
                    None => never += 1,
                }
            }
        }
        assert!(heard > 10_000 && refused > 1_000 && tight > 20, "{heard} {refused} {tight}");
        let remembered = [at_the_start, later, never];
        assert!(remembered.iter().all(|&tunnels| tunnels > 500), "{remembered:?}");
    }

    #[test]
    fn the_neighbour_that_was_just_heard_waits_for_the_whole_row() {
        let (monitor, bytes) = (p12(), p12().to_bytes());
        let mut driven = Driven::new(&monitor, &bytes, 64);
        driven.post(40, 1);
        assert!(driven.turn());
        for number in 0..64 {
            driven.post(number, 0);
        }
        for turn in 1..=64 {
            assert!(driven.turn());
            assert_eq!(driven.desk[40].waiting, u16::from(turn < 64));
            driven.post((40 + turn) % 64, 0);
        }
        assert_eq!(driven.history.longest_wait(), 64);
    }

    fn heard(number: usize, event: u8, state: u16, verdict: Verdict) -> Option<Heard> {
        Some(Heard { number, event, state: State { opening: NUMBER, number: state }, verdict })
    }

    /// A history of two tunnels, with events for the first.
    fn with_events<'a>(monitor: &'a Monitor, events: &[u8]) -> History<'a> {
        let mut history = History::new(monitor, NUMBER, 2);
        events.iter().for_each(|&event| history.posted(0, event));
        history
    }

    #[test]
    fn wrong_turns_are_told() {
        let monitor = p12();
        let told = |heard: Option<Heard>| with_events(&monitor, &[1, 2]).turned(heard);
        let undecided = Verdict::Undecided;
        assert_eq!(told(heard(0, 1, 1, undecided)), Ok(()));
        assert_eq!(told(None), Err("none waits, but one does"));
        assert_eq!(told(heard(2, 1, 1, undecided)), Err("no such tunnel was heard"));
        let not_the_oldest = Err("the event heard is not the oldest that waits");
        assert_eq!(told(heard(0, 2, 1, undecided)), not_the_oldest);
        assert_eq!(told(heard(1, 1, 1, undecided)), not_the_oldest);
        let not_the_end = Err("the answer is not the end of a run over the events heard");
        assert_eq!(told(heard(0, 1, 0, undecided)), not_the_end);
        assert_eq!(told(heard(0, 1, 1, Verdict::Violated)), not_the_end);
        for opening in [0, NUMBER - 1, NUMBER + 1, NUMBER ^ 256] {
            let mut foreign = heard(0, 1, 1, undecided).unwrap();
            foreign.state.opening = opening;
            assert_eq!(told(Some(foreign)), Err(NOT_THE_OPENING));
        }
        let mut wrong_event = with_events(&monitor, &[4]);
        let taken_by_no_run = Err("an event that no run takes was heard");
        assert_eq!(wrong_event.turned(heard(0, 4, 1, undecided)), taken_by_no_run);
    }

    #[test]
    fn a_turn_too_many_is_told() {
        let monitor = p12();
        let mut history = with_events(&monitor, &[0, 0, 0]);
        history.posted(1, 0);
        let first = heard(0, 0, 0, Verdict::Undecided);
        assert_eq!(history.turned(first), Ok(()));
        let too_many = Err("a tunnel waits for more turns than the row has tunnels");
        assert_eq!(history.turned(first), too_many);
        assert_eq!(History::new(&monitor, NUMBER, 2).turned(None), Ok(()));
    }

    #[test]
    fn a_wrong_tunnel_is_told() {
        let monitor = p12();
        let mut history = with_events(&monitor, &[1, 2]);
        history.turned(heard(0, 1, 1, Verdict::Undecided)).unwrap();
        let fresh = Tunnel::fresh(NUMBER, Verdict::Undecided);
        let tunnel = |state, waiting, first| {
            let mut tunnel = Tunnel { state, waiting, heard: 1, ..fresh.clone() };
            tunnel.slots[0] = first;
            tunnel
        };
        assert_eq!(history.check_all(&[tunnel(1, 1, 2), fresh.clone()]), Ok(()));
        let not_the_queue = Err("the accepted events are not those heard and then those that wait");
        for wrong in [tunnel(1, 0, 2), tunnel(1, 2, 2), tunnel(1, 1, 1)] {
            assert_eq!(history.check(0, &wrong), not_the_queue);
        }
        assert_eq!(history.check(0, &tunnel(0, 1, 2)), Err(NOT_THE_STATE));
        let foreign = Tunnel { opening: NUMBER ^ 1, ..tunnel(1, 1, 2) };
        assert_eq!(history.check(0, &foreign), Err(NOT_THE_OPENING));
        let second_wrong = [tunnel(1, 1, 2), tunnel(1, 0, 0)];
        assert_eq!(history.check_all(&second_wrong), Err(NOT_THE_STATE));
        assert_eq!(history.check_all(&second_wrong[..1]), Err("the row has another length"));
        let second_heard = [tunnel(1, 1, 2), Tunnel { state: 0, ..tunnel(1, 0, 0) }];
        assert_eq!(history.check_all(&second_heard), Err(NOT_AS_MANY));
        assert_eq!(history.check(0, &Tunnel { heard: 2, ..tunnel(1, 1, 2) }), Err(NOT_AS_MANY));
    }

    /// One tunnel over a table in which event 1 leads to satisfied, after two events.
    fn remembered(monitor: &Monitor, filled: u16, first: u32) -> Result<(), Broken> {
        let mut history = History::new(monitor, NUMBER, 1);
        let mut tunnel = Tunnel::fresh(NUMBER, Verdict::Undecided);
        for event in [1, 0] {
            history.posted(0, event);
            tunnel.state = monitor.run(tunnel.state, &[event]).unwrap().end_state;
            let verdict = monitor.states[usize::from(tunnel.state)].verdict;
            history.turned(heard(0, event, tunnel.state, verdict)).unwrap();
        }
        history.check(0, &Tunnel { filled, first, heard: 2, ..tunnel })
    }

    #[test]
    fn what_is_remembered_wrongly_is_told() {
        let lasting = p3();
        assert_eq!(remembered(&lasting, 1, 1), Ok(()));
        assert_eq!(remembered(&lasting, 7, 1), Ok(()));
        assert_eq!(remembered(&lasting, 0, 1), Err(NOT_WHILE_IT_STANDS));
        for first in [0, 2, u32::MAX] {
            assert_eq!(remembered(&lasting, 1, first), Err(NOT_THE_COUNT), "{first}");
        }
        let mut passing = p3();
        passing.states[2].successors = vec![0, 0];
        assert_eq!(remembered(&passing, 1, 1), Ok(()));
        assert_eq!(remembered(&passing, 0, 0), Err(NOT_THE_COUNT));
        let fresh = |start| History::new(&p3(), NUMBER, 1).check(0, &Tunnel::fresh(NUMBER, start));
        assert_eq!(fresh(Verdict::Undecided), Ok(()));
        assert_eq!(fresh(Verdict::Satisfied), Err(NOT_WHILE_IT_STANDS));
    }

    #[test]
    fn verdicts_of_built_tables_last() {
        let mut rng = Rng::new(79);
        let random = (0..200).map(|_| random_short_rule(&mut rng, 9));
        let rules: Vec<_> = document_rules().into_iter().chain(random).collect();
        let mut decided = 0;
        for rule in rules {
            let mut table = vec![0; 9479];
            let Ok(length) = builder::build(&rule.to_bytes(), &mut table) else {
                continue;
            };
            let monitor = Monitor::open(&table[..length]).unwrap();
            assert!(History::new(&monitor, NUMBER, 1).verdicts_last());
            decided += monitor.states.iter().filter(|state| is_decided(state)).count();
        }
        assert!(decided > 100, "{decided}");
        let mut passing = p3();
        passing.states[2].successors[1] = 0;
        assert!(!History::new(&passing, NUMBER, 1).verdicts_last());
    }
}
