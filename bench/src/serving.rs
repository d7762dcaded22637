//! Fresh desks, posts and turns at a desk of 64: the proved library beside plain Rust that does the same job. After each call one watch, the one
//! that a post or a turn changed, is put back, on both sides, and that is part of the time.

use std::fmt::Debug;
use std::hint::black_box;

use oracle::counted;
use oracle::rng::Rng;
use oracle::rule::Rule;
use oracle::table::Monitor;
use oracle::vectors::mask_samples::NOT_ALONE;
use oracle::vectors::rule_samples::{one_too_many, shared_nexts};
use oracle::vectors::table_samples::random_events;

use crate::clock::Work;
use crate::plain_desk;
use crate::tefuji::{self, Heard, Opened, Watch, DESK_MAX, QUEUE_MAX};

const SEED: u64 = 0x5eed_0000_0000_000b;
/// The number of every opening.
pub const NUMBER: u16 = 4660;
/// The tunnel that is heard last. The next one is served.
const LAST: usize = 30;
const SERVED: usize = LAST + 1;
/// The calls of one look at the clock.
const BATCH: usize = 64;

/// The table of a rule.
pub fn built(rule: Rule) -> Vec<u8> {
    let mut table = vec![0; tefuji::TABLE_MAX];
    let length = tefuji::build(&rule.to_bytes(), &mut table).expect("the rule is good");
    table.truncate(length);
    table
}

/// The tables of a desk: the table and its name.
pub fn tables() -> [(&'static str, Vec<u8>); 2] {
    [
        ("244 states", built(shared_nexts(5))),
        ("256 states, 15 of 16 events", built(one_too_many().with_mask(NOT_ALONE))),
    ]
}

/// A full row over a table, with so many events waiting for each tunnel.
pub fn desk(table: &[u8], waiting: usize) -> Vec<Watch> {
    let mut rng = Rng::new(SEED);
    let monitor = Monitor::open(table).expect("the table is good");
    let mut watch = |_| {
        let waits = waiting as u16;
        let mut watch = Watch { opening: NUMBER, waiting: waits, heard: 1000, ..Watch::BLANK };
        watch.state = rng.below(monitor.states.len()) as u16;
        let events = random_events(&mut rng, &monitor, waiting);
        watch.events[..waiting].copy_from_slice(&events);
        watch
    };
    (0..DESK_MAX).map(&mut watch).collect()
}

/// What a turn heard, as the plain desk says it.
fn parts(heard: Heard) -> plain_desk::Heard {
    (heard.number, heard.event, heard.reached.state.to_bits(), heard.reached.verdict as u8)
}

/// Nanoseconds of one call, after which the served watch is put back.
fn time<T>(work: &Work, desk: &mut [Watch], call: impl Fn(&mut [Watch]) -> T) -> f64 {
    let before = desk[SERVED];
    let batch = work.nanoseconds(|| {
        for _ in 0..BATCH {
            black_box(call(black_box(&mut *desk)));
            desk[SERVED] = before;
        }
    });
    batch / BATCH as f64
}

/// A call on both sides, which answer the same and leave the same desk; then each is measured.
fn print_row<T: PartialEq + Debug>(
    work: &Work,
    name: String,
    mut desk: Vec<Watch>,
    ours: impl Fn(&mut [Watch]) -> T,
    plain: impl Fn(&mut [Watch]) -> T,
) {
    let (mut our_desk, mut plain_desk) = (desk.clone(), desk.clone());
    assert_eq!(ours(&mut our_desk), plain(&mut plain_desk), "{name}");
    assert_eq!(our_desk, plain_desk, "{name}");
    let (ours, plain) = (time(work, &mut desk, ours), time(work, &mut desk, plain));
    println!("| {name} | {ours:.0} | {plain:.0} | {:.1} |", ours / plain);
}

const GOOD: &str = "the call is not refused";

pub fn report(work: &Work) {
    println!(
        "\n| serving a desk of {DESK_MAX}, ns a call | proved | plain | ratio |\n|---|---|---|---|"
    );
    for (name, table) in &tables() {
        let opened = Opened::open(table, NUMBER).expect("the table is good");
        let given = counted::opened(opened.signals(), NUMBER, opened.states().into());
        let ours = |desk: &mut [Watch]| opened.fresh(desk).expect(GOOD);
        let plain = |desk: &mut [Watch]| plain_desk::fresh(desk, table, given).expect(GOOD);
        print_row(work, format!("fresh, {name}"), desk(table, QUEUE_MAX), ours, plain);
        for waiting in [0, QUEUE_MAX - 1] {
            let name = format!("post, {waiting} waiting for each, {name}");
            let ours = |desk: &mut [Watch]| opened.post(desk, SERVED, 0).expect(GOOD);
            let plain =
                |desk: &mut [Watch]| plain_desk::post(desk, table, given, SERVED, 0).expect(GOOD);
            print_row(work, name, desk(table, waiting), ours, plain);
        }
        for waiting in [0, 1, 3, QUEUE_MAX] {
            let name = format!("turn, {waiting} waiting for each, {name}");
            let ours = |desk: &mut [Watch]| opened.turn(desk, LAST).expect(GOOD).map(parts);
            let plain =
                |desk: &mut [Watch]| plain_desk::turn(desk, table, given, LAST).expect(GOOD);
            print_row(work, name, desk(table, waiting), ours, plain);
        }
    }
}
