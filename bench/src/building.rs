//! Building tables: the proved library beside the oracle's builder, which is written for speed.

use std::hint::black_box;

use oracle::builder;
use oracle::random_rules::Shape;
use oracle::rng::Rng;
use oracle::rule::Rule;
use oracle::vectors::mask_samples::{valve_block, APART, APART_OF_THREE, LOWER_HALF, NOT_ALONE};
use oracle::vectors::rule_samples::{counted_until, flap_pair};
use oracle::vectors::rule_samples::{document_rules, nexts, p12, p3, shared_nexts};
use oracle::vectors::rule_samples::{full_table, merged_states, one_too_many};

use crate::clock::Work;
use crate::tefuji;

const SEED: u64 = 0x5eed_0000_0000_0007;

/// Microseconds of one build, ours and the plain one.
struct Cost {
    ours: f64,
    plain: f64,
}

impl Cost {
    fn of(work: &Work, rule: &Rule) -> Self {
        let file = rule.to_bytes();
        let mut our_table = vec![0; tefuji::TABLE_MAX];
        let mut plain_table = vec![0; tefuji::TABLE_MAX];
        let our_answer = tefuji::build(&file, &mut our_table).map_err(|refusal| refusal.number);
        let plain_answer =
            builder::build(&file, &mut plain_table).map_err(|refusal| refusal.number);
        assert_eq!(our_answer, plain_answer, "{rule}");
        assert_eq!(our_table, plain_table, "{rule}");
        let ours = work.nanoseconds(|| tefuji::build(black_box(&file), &mut our_table));
        let plain = work.nanoseconds(|| builder::build(black_box(&file), &mut plain_table));
        Cost { ours: ours / 1000.0, plain: plain / 1000.0 }
    }

    fn add(&mut self, other: &Cost) {
        self.ours += other.ours;
        self.plain += other.plain;
    }

    fn print(&self, name: &str) {
        println!(
            "| {name} | {:.1} | {:.1} | {:.1} |",
            self.ours,
            self.plain,
            self.ours / self.plain
        );
    }
}

fn sum(work: &Work, rules: &[Rule]) -> Cost {
    let mut total = Cost { ours: 0.0, plain: 0.0 };
    for rule in rules {
        total.add(&Cost::of(work, rule));
    }
    total
}

/// The rules at the edge of 256 remaining properties, under their names.
pub fn edge_rules() -> [(&'static str, Rule); 3] {
    [
        ("256 states, 4 signals", full_table()),
        ("256 remaining properties, 129 states", merged_states()),
        ("257 remaining properties, refused", one_too_many()),
    ]
}

/// Rules in which some events cannot happen, under their names.
pub fn masked_rules() -> [(&'static str, Rule); 5] {
    [
        ("3 states, 3 of 4 events", p12().with_mask(APART)),
        ("the valve block, 3 of 4 events", valve_block()),
        ("244 states, 6 of 8 events", shared_nexts(5).with_mask(APART_OF_THREE)),
        ("256 states, 15 of 16 events", one_too_many().with_mask(NOT_ALONE)),
        ("128 states, 8 of 16 events", one_too_many().with_mask(LOWER_HALF)),
    ]
}

pub fn report(work: &Work) {
    println!("\n| building, µs | proved | plain | ratio |\n|---|---|---|---|");
    let known = document_rules();
    sum(work, &known).print(&format!("document 01's known rules, all {}", known.len()));
    for (states, rule) in
        [(3, p3()), (28, shared_nexts(3)), (82, shared_nexts(4)), (244, shared_nexts(5))]
    {
        Cost::of(work, &rule).print(&format!("{states} states"));
    }
    for (name, rule) in edge_rules() {
        Cost::of(work, &rule).print(name);
    }
    for signals in 1..=4 {
        let rule = Rule { signals, ..nexts(7) };
        let events = 1 << signals;
        Cost::of(work, &rule).print(&format!("seven nexts, {signals} signals, {events} events"));
    }
    for (name, rule) in [
        ("always exactly one of two signals", flap_pair()),
        ("always one or two of four signals imply next two or three until none", counted_until()),
    ] {
        Cost::of(work, &rule).print(name);
    }
    for (name, rule) in masked_rules() {
        Cost::of(work, &rule).print(name);
    }
    let shape = Shape { signals: 1..=4, temporal: 4..=7, nodes: 24 };
    let mut rng = Rng::new(SEED);
    let random: Vec<Rule> =
        (0..work.random_rules).map(|_| shape.draw_interesting(&mut rng)).collect();
    sum(work, &random).print(&format!("{} random rules of 4 to 7 temporal nodes", random.len()));
}
