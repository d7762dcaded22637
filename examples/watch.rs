//! Watches a list of events by a rule: `watch RULE EVENT..`, each event a number.
//!
//! Build: (cd crates/tefuji && rt lib) && rustc --edition 2021 -O -L crates/tefuji/out -l static=tefuji examples/watch.rs -o watch
//! Run:   ./watch examples/second_dose.rule 1 0 1
mod tefuji;

use std::process::ExitCode;
use tefuji::{Opened, Refusal};

const USAGE: &str = "usage: watch RULE EVENT..\n\nPrints the rule's table, then the state and the verdict after each event.";

fn main() -> ExitCode {
    let arguments: Vec<String> = std::env::args().skip(1).collect();
    let Some((path, events)) = arguments.split_first() else {
        eprintln!("{USAGE}");
        return ExitCode::from(2);
    };
    let Ok(events) = events.iter().map(|event| event.parse()).collect::<Result<Vec<u8>, _>>() else {
        eprintln!("an event is a number from 0 to 255");
        return ExitCode::from(2);
    };
    let rule = match std::fs::read(path) {
        Ok(rule) => rule,
        Err(error) => {
            eprintln!("cannot read {path}: {error}");
            return ExitCode::FAILURE;
        }
    };
    match watch(&rule, &events) {
        Ok(()) => ExitCode::SUCCESS,
        Err(refusal) => {
            println!("{refusal}");
            ExitCode::FAILURE
        }
    }
}

fn watch(rule: &[u8], events: &[u8]) -> Result<(), Refusal> {
    let mut buffer = vec![0; tefuji::TABLE_MAX];
    let length = tefuji::build(rule, &mut buffer)?;
    let table = &buffer[..length];
    let mut text = vec![0; tefuji::TEXT_ROOM];
    let written = tefuji::text(table, &mut text)?;
    print!("{}", String::from_utf8_lossy(&text[..written]));

    let opened = Opened::open(table, 1)?;
    let mut state = opened.start();
    for &event in events {
        let reached = opened.step(state, event)?;
        println!("event {event}: state {} {}", reached.state, reached.verdict);
        state = reached.state;
    }
    let ended = opened.run(opened.start(), events)?;
    match ended.count {
        Some(count) => println!("first decided after {count} events"),
        None => println!("never decided"),
    }
    Ok(())
}
