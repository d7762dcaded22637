//! How much stack each call needs: the stack below the caller is painted first, and looked at after the call. A call that needs more than
//! include/tefuji.h says ends the report.

use std::hint::black_box;
use std::ptr;

use oracle::vectors::mask_samples::NOT_ALONE;
use oracle::vectors::rule_samples::{one_too_many, shared_nexts};

use crate::building;
use crate::judging;
use crate::serving::{self, NUMBER};
use crate::tefuji::{self, Opened, DESK_MAX, QUEUE_MAX};
use crate::writing;

/// How far down the stack is painted.
const DEPTH: usize = 1 << 20;
/// What is left alone for the frames of the functions here.
const FRAMES: usize = 1 << 10;
const PAINT: u8 = 0xa5;

/// The most bytes of stack that include/tefuji.h allows a call. What is measured has the frames of the functions here in it.
const WRITING: usize = 128 << 10;
const BUILDING: usize = 28 << 10;
/// From 4,096 events on.
const LONG_RUNS: usize = 17 << 10;
/// Where nothing is said. Less is not told apart.
const OTHERS: usize = FRAMES;

/// The thread's stack has room for all that is painted, and nothing lives there while it is.
#[inline(never)]
fn paint(top: *mut u8) {
    for depth in FRAMES..DEPTH {
        unsafe { ptr::write_volatile(top.wrapping_sub(depth), PAINT) };
    }
}

/// The depth of the lowest byte that has another value than the paint's.
#[inline(never)]
fn touched(top: *const u8) -> usize {
    let is_painted =
        |depth: &usize| unsafe { ptr::read_volatile(top.wrapping_sub(*depth)) } == PAINT;
    DEPTH - (FRAMES..DEPTH).rev().take_while(is_painted).count()
}

#[inline(never)]
fn stack_of(call: &mut dyn FnMut()) -> usize {
    let mut top = 0;
    let top: *mut u8 = black_box(&mut top);
    paint(top);
    call();
    touched(top)
}

fn print(name: &str, allowed: usize, mut call: impl FnMut()) {
    let bytes = stack_of(&mut call);
    println!("| {name} | {bytes} |");
    assert!(
        bytes <= allowed,
        "{name}: {bytes} bytes of stack, where include/tefuji.h allows {allowed}"
    );
}

fn measure() {
    println!("\n| call (at most {FRAMES}: not told apart) | stack, bytes |\n|---|---|");
    measure_making();
    measure_using("", &shared_nexts(5).to_bytes());
    measure_using(", 15 of 16 events", &one_too_many().with_mask(NOT_ALONE).to_bytes());
    for (name, table) in serving::tables() {
        measure_serving(name, &table);
    }
    for (name, table) in judging::tables() {
        measure_judging(name, &table);
    }
}

fn measure_making() {
    let mut file = vec![0; tefuji::RULE_MAX];
    for text in [writing::typical()].iter().chain(&writing::longest()) {
        let name = format!("write, {}", text.name);
        print(&name, WRITING, || _ = black_box(tefuji::write(&text.bytes, 2, &mut file)));
    }
    let mut table = vec![0; tefuji::TABLE_MAX];
    let edge = building::edge_rules();
    let rules = [("244 states", shared_nexts(5))].into_iter().chain(edge);
    for (name, rule) in rules.chain(building::masked_rules()) {
        let (name, rule) = (format!("build, {name}"), rule.to_bytes());
        print(&name, BUILDING, || _ = black_box(tefuji::build(&rule, &mut table)));
    }
}

/// Opens, runs, steps and prints the table of a rule in which event 0 can happen.
fn measure_using(which: &str, rule: &[u8]) {
    let mut table = vec![0; tefuji::TABLE_MAX];
    let length = tefuji::build(rule, &mut table).expect("the rule is good");
    let table = &table[..length];
    let events = vec![0; 5000];
    let mut text = vec![0; tefuji::TEXT_ROOM];
    let opened = Opened::open(table, NUMBER).expect("a table");
    let start = opened.start();
    print(&format!("open{which}"), OTHERS, || _ = black_box(Opened::open(table, NUMBER)));
    for (name, count, allowed) in [
        ("run, 10 events", 10, OTHERS),
        ("run, 4,095 events", 4095, OTHERS),
        ("run, 4,096 events", 4096, LONG_RUNS),
    ] {
        let name = format!("{name}{which}");
        print(&name, allowed, || _ = black_box(opened.run(start, &events[..count])));
    }
    print(&format!("step{which}"), OTHERS, || _ = black_box(opened.step(start, 0)));
    print(&format!("text{which}"), OTHERS, || _ = black_box(tefuji::text(table, &mut text)));
}

/// A fresh desk; posts and turns at a full row, with nothing waiting and with all slots but one or all taken.
fn measure_serving(which: &str, table: &[u8]) {
    let opened = Opened::open(table, NUMBER).expect("a table");
    let mut desk = serving::desk(table, QUEUE_MAX);
    print(&format!("fresh, {which}"), OTHERS, || _ = black_box(opened.fresh(&mut desk)));
    for waiting in [0, QUEUE_MAX - 1] {
        let mut desk = serving::desk(table, waiting);
        let name = format!("post, {waiting} waiting for each, {which}");
        print(&name, OTHERS, || _ = black_box(opened.post(&mut desk, DESK_MAX - 1, 0)));
    }
    for waiting in [0, QUEUE_MAX] {
        let mut desk = serving::desk(table, waiting);
        let name = format!("turn, {waiting} waiting for each, {which}");
        print(&name, OTHERS, || _ = black_box(opened.turn(&mut desk, 0)));
    }
}

/// A short pair of recordings and a long one.
fn measure_judging(which: &str, table: &[u8]) {
    let opened = Opened::open(table, NUMBER).expect("a table");
    for count in judging::LENGTHS {
        let [first, second] = judging::recordings(table, count);
        let name = format!("judge, {count} events, {which}");
        print(&name, OTHERS, || _ = black_box(opened.judge_recordings(&first, &second)));
    }
}

/// On a thread of its own, with room to paint.
pub fn report() {
    let thread = std::thread::Builder::new().stack_size(8 * DEPTH).spawn(measure);
    let measured = thread.expect("a thread can be started").join();
    measured.unwrap_or_else(|panic| std::panic::resume_unwind(panic));
}
