//! Drives the library from Rust with generated cases and compares every answer with the oracle's.

mod answer;
mod case;
mod compare;
mod generate;
mod library;
mod tally;
#[path = "../../examples/tefuji.rs"]
mod tefuji;

use std::fmt::Display;
use std::panic::{catch_unwind, AssertUnwindSafe};
use std::process::ExitCode;
use std::time::Instant;

use generate::Generator;
use oracle::rng::Rng;
use tally::Tally;

const HELP: &str = "\
usage: harness [CASES [SEED]]

Generates so many cases, 300000 unless said otherwise, and compares every answer of the library
with the oracle's. The first difference is printed and ends the run with status 1.";

const CASES: u64 = 300_000;
const SEED: u64 = 1;
/// After so many cases a line on standard error says how far the run has come.
const STRIDE: u64 = 50_000;

fn main() -> ExitCode {
    let arguments: Vec<String> = std::env::args().skip(1).collect();
    let Some((cases, seed)) = read_arguments(&arguments) else {
        eprintln!("{HELP}");
        return ExitCode::from(2);
    };
    let begin = Instant::now();
    let outcome = run(cases, seed);
    eprintln!("harness: {:.1} s", begin.elapsed().as_secs_f64());
    match outcome {
        Ok(summary) => {
            println!("{summary}");
            ExitCode::SUCCESS
        }
        Err(failure) => {
            println!("{failure}");
            ExitCode::FAILURE
        }
    }
}

/// The number of cases and the seed.
fn read_arguments(arguments: &[String]) -> Option<(u64, u64)> {
    match arguments {
        [] => Some((CASES, SEED)),
        [cases] => Some((cases.parse().ok()?, SEED)),
        [cases, seed] => Some((cases.parse().ok()?, seed.parse().ok()?)),
        _ => None,
    }
}

/// The summary, or the first difference, or what the cases did not meet.
fn run(cases: u64, seed: u64) -> Result<String, String> {
    let generator = Generator::new(&mut Rng::new(seed_of(seed, u64::MAX)));
    let mut tally = Tally::default();
    for number in 0..cases {
        let case = generator.case(&mut Rng::new(seed_of(seed, number)), number);
        let compared = catch_unwind(AssertUnwindSafe(|| compare::case(&case, &mut tally)));
        let failed = |how: &dyn Display| format!("seed {seed}, case {number}\n{case}\n{how}");
        match compared {
            Ok(Ok(())) => {}
            Ok(Err(difference)) => return Err(failed(&difference)),
            Err(_) => return Err(failed(&"the harness or the oracle panicked")),
        }
        if (number + 1) % STRIDE == 0 {
            eprintln!("harness: {} of {cases} cases", number + 1);
        }
    }
    let summary = format!("harness: seed {seed}, {cases} cases, no difference; {tally}");
    match tally.missing() {
        missing if missing.is_empty() => Ok(summary),
        missing => Err(format!("{summary}\nnot met: {}", missing.join(", "))),
    }
}

/// The seed of one case, never 0: neighbouring numbers give unlike seeds (splitmix64).
fn seed_of(seed: u64, number: u64) -> u64 {
    let mut mixed = seed.wrapping_add(number.wrapping_mul(0x9e37_79b9_7f4a_7c15));
    mixed = (mixed ^ mixed >> 30).wrapping_mul(0xbf58_476d_1ce4_e5b9);
    mixed = (mixed ^ mixed >> 27).wrapping_mul(0x94d0_49bb_1331_11eb);
    (mixed ^ mixed >> 31).max(1)
}
