//! Two recordings with gaps: the proved library beside plain Rust that does the same job.

use std::hint::black_box;

use oracle::counted;
use oracle::random_recordings::two_recordings;
use oracle::rng::Rng;
use oracle::table::{Monitor, Verdict};
use oracle::vectors::mask_samples::NOT_ALONE;
use oracle::vectors::rule_samples::{one_too_many, p12, shared_nexts};

use crate::clock::Work;
use crate::plain_recordings;
use crate::running::random_table;
use crate::serving::{built, NUMBER};
use crate::tefuji::Opened;

const SEED: u64 = 0x5eed_0000_0000_000c;

/// Of 100 signals those that neither recording knows.
const UNKNOWN: usize = 50;
/// The events of a short recording, and of a long one.
pub const LENGTHS: [usize; 2] = [10, 10_000];

/// The tables, each under its name: few states, many of a rule, and one over which a run can soon stand in nearly all.
pub fn tables() -> Vec<(&'static str, Vec<u8>)> {
    let random = random_table(&mut Rng::new(SEED), 4, 256);
    vec![
        ("3 states, 2 signals", built(p12())),
        ("244 states, 3 signals", built(shared_nexts(5))),
        ("256 states, 4 signals, 15 of 16 events", built(one_too_many().with_mask(NOT_ALONE))),
        ("256 states at random, 4 signals", random.to_bytes()),
    ]
}

/// Two recordings of so many events, which lead from one undecided state to another as long as there is such.
pub fn recordings(table: &[u8], count: usize) -> [Vec<u8>; 2] {
    let mut rng = Rng::new(SEED);
    let monitor = Monitor::open(table).expect("the table is good");
    let mut state = 0;
    let mut event = |_| {
        let steps: Vec<(u8, usize)> = monitor.states[state].steps().collect();
        let is_open = |step: &(u8, usize)| monitor.states[step.1].verdict == Verdict::Undecided;
        let open: Vec<(u8, usize)> = steps.iter().copied().filter(is_open).collect();
        let (event, next) = *rng.pick(if open.is_empty() { &steps } else { &open });
        state = next;
        event
    };
    let events: Vec<u8> = (0..count).map(&mut event).collect();
    two_recordings(&mut rng, monitor.signals, &events, UNKNOWN)
}

/// The states in which a run can stand, on average over all events.
fn average_states(table: &[u8], opened: u64, [first, second]: &[Vec<u8>; 2]) -> f64 {
    let table = counted::Counted::new(table, opened).expect("the opening is the table's");
    let choices = oracle::recordings::joined(&table, first, second).expect("nothing is wrong");
    let sets = oracle::recordings::sets(&table, &choices).expect("the table is good");
    sets.iter().map(|set| set.len()).sum::<usize>() as f64 / sets.len() as f64
}

fn print_row(work: &Work, name: &str, table: &[u8], count: usize) {
    let opened = Opened::open(table, NUMBER).expect("the table is good");
    let given = counted::opened(opened.signals(), NUMBER, opened.states().into());
    let lent = recordings(table, count);
    let [first, second] = &lent;
    let our_answer = opened.judge_recordings(first, second).map(|verdict| verdict as u8);
    let plain_answer = plain_recordings::judge(table, given, first, second);
    assert_eq!(
        our_answer.map_err(|refusal| (refusal.number, refusal.place as usize)),
        plain_answer
    );
    let states = average_states(table, given, &lent);
    let ours = work.nanoseconds(|| opened.judge_recordings(black_box(first), second)) / 1000.0;
    let plain = work
        .nanoseconds(|| plain_recordings::judge(black_box(table), given, black_box(first), second))
        / 1000.0;
    println!("| {name} | {count} | {states:.1} | {ours:.2} | {plain:.2} | {:.1} |", ours / plain);
}

pub fn report(work: &Work) {
    println!("\n| judging two recordings, half of the bits unknown to both, µs | events | states at once | proved | plain | ratio |\n|---|---|---|---|---|---|");
    for (name, table) in &tables() {
        for count in LENGTHS {
            print_row(work, name, table, count);
        }
    }
}
