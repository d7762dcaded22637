//! The generator of cases. A case depends on the seed and its number only.

mod desks;
mod edge;
mod events;
mod openings;
mod planned;
mod recordings;
mod rules;
mod spoil;
mod tables;
mod texts;

use oracle::rng::Rng;
use oracle::table::Monitor;

use crate::case::{Case, Input, Room};
use crate::tefuji::TEXT_ROOM;
use rules::Rules;
use tables::Tables;
use texts::Texts;

/// Bytes and the name of the way in which they were made.
pub struct Made {
    pub origin: &'static str,
    pub bytes: Vec<u8>,
}

/// The origin of lists of thousands of events.
const LONG: &str = "long";

/// The sum of the weights in `case`.
const CASE_WEIGHTS: usize = 156;

impl Made {
    fn new(origin: &'static str, bytes: Vec<u8>) -> Self {
        Made { origin, bytes }
    }
}

/// What is made once, for cases to pick from.
pub struct Generator {
    rules: Rules,
    tables: Tables,
    texts: Texts,
}

impl Generator {
    pub fn new(rng: &mut Rng) -> Self {
        Generator { rules: Rules::new(rng), tables: Tables::new(rng), texts: Texts::new() }
    }

    pub fn case(&self, rng: &mut Rng, number: u64) -> Case {
        if number < edge::CASES {
            return edge::case(rng, number);
        }
        match rng.below(CASE_WEIGHTS) {
            0..=34 => self.build(rng),
            35..=49 => self.open(rng),
            50..=74 => self.run(rng),
            75..=89 => self.step(rng),
            90..=99 => self.text(rng),
            100..=111 => self.write(rng),
            112..=129 => desks::case(&self.tables, rng),
            130..=133 => desks::history(&self.tables, rng),
            134..=149 => recordings::case(&self.tables, rng),
            _ => openings::case(&self.tables, rng),
        }
    }

    fn build(&self, rng: &mut Rng) -> Case {
        let paint = rng.byte_below(256);
        // One rule in ten is large, and is built once only.
        if rng.below(10) == 0 {
            let Made { origin, bytes } = self.rules.large(rng);
            let rooms = vec![one_room(rng)];
            return Case { origin, input: Input::Build { rule: bytes, rooms, paint } };
        }
        let Made { origin, bytes } = self.rules.any(rng);
        let rooms = vec![Room::Empty, Room::ShortBy(1), Room::Exact, one_room(rng)];
        Case { origin, input: Input::Build { rule: bytes, rooms, paint } }
    }

    fn open(&self, rng: &mut Rng) -> Case {
        let made = if rng.chance(30) { self.tables.good(rng) } else { self.tables.spoilt(rng) };
        let number = openings::number(rng);
        Case { origin: made.origin, input: Input::Open { table: made.bytes, number } }
    }

    fn run(&self, rng: &mut Rng) -> Case {
        // The library runs over long lists in another way.
        if rng.below(50) == 0 {
            return self.long_run(rng);
        }
        let Made { origin, bytes: table } = self.mostly_good(rng);
        let events = events::list(rng, &table);
        self.run_over(rng, origin, table, events)
    }

    fn long_run(&self, rng: &mut Rng) -> Case {
        let table = if rng.chance(50) { tables::chain(rng) } else { self.mostly_good(rng).bytes };
        let events = events::long_list(rng, &table);
        self.run_over(rng, LONG, table, events)
    }

    /// One in five over bytes that changed after the table was opened. Of long lists more are run
    /// from a state with another number, and some runs have that, a state too large and a byte that
    /// is no event.
    fn run_over(
        &self,
        rng: &mut Rng,
        origin: &'static str,
        mut table: Vec<u8>,
        mut events: Vec<u8>,
    ) -> Case {
        let number = openings::number(rng);
        let opened = events::opened(rng, &table, number);
        let mut state = events::state(rng, &table, number);
        if opened >> 32 <= 4 && rng.below(5) == 0 && Monitor::open(&table).is_ok() {
            let states = u16::from_le_bytes([table[5], table[6]]);
            desks::change_rows(rng, &mut table, states);
        }
        let has_all = !events.is_empty() && rng.below(60) == 0;
        if has_all || origin == LONG && rng.chance(25) {
            state.opening = openings::other(rng, number);
        }
        if has_all {
            let place = rng.below(events.len());
            events[place] = *rng.pick(&[16, 255]);
            state.number = *rng.pick(&[256, 257, 65535]);
        }
        let cell = events::number(rng);
        Case { origin, input: Input::Run { table, opened, state, events, cell } }
    }

    fn step(&self, rng: &mut Rng) -> Case {
        let made = if rng.chance(60) { self.tables.good(rng) } else { self.tables.spoilt(rng) };
        let Made { origin, bytes: table } = made;
        let number = openings::number(rng);
        let steps = (0..4).map(|_| events::step(rng, &table, number)).collect();
        let strays = (0..6).map(|_| events::stray(rng, &table)).collect();
        Case { origin, input: Input::Step { table, number, steps, strays } }
    }

    fn text(&self, rng: &mut Rng) -> Case {
        let Made { origin, bytes: table } = self.mostly_good(rng);
        let length = match rng.below(10) {
            0 => rng.below(64),
            1 => TEXT_ROOM - 1,
            2 => rng.below(TEXT_ROOM),
            3..=7 => TEXT_ROOM,
            _ => TEXT_ROOM + rng.between(1, 100),
        };
        let paint = rng.byte_below(256);
        Case { origin, input: Input::Text { table, length, paint } }
    }

    fn write(&self, rng: &mut Rng) -> Case {
        let Made { origin, bytes: text } = self.texts.any(rng);
        let signals = texts::signals(rng);
        let rooms = vec![Room::Empty, Room::ShortBy(1), Room::Exact, one_room(rng)];
        let paint = rng.byte_below(256);
        Case { origin, input: Input::Write { text, signals, rooms, paint } }
    }

    fn mostly_good(&self, rng: &mut Rng) -> Made {
        if rng.chance(85) {
            self.tables.good(rng)
        } else {
            self.tables.spoilt(rng)
        }
    }
}

fn one_room(rng: &mut Rng) -> Room {
    match rng.below(10) {
        0 => Room::Empty,
        1 => Room::ShortBy(1),
        2 => Room::ShortBy(rng.between(2, 60)),
        3 => Room::Exact,
        4 => Room::Largest,
        _ => Room::LongerBy(rng.between(1, 100)),
    }
}
