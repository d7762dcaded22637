//! Watches several tunnels by one rule: `tunnels RULE NUMBER:EVENT..`. All events are posted, then turns are taken until none waits; then
//! each tunnel that was heard says at which of its events a verdict first stood.
//!
//! Build: (cd crates/tefuji && rt lib) && rustc --edition 2021 -O -L crates/tefuji/out -l static=tefuji examples/tunnels.rs -o tunnels
//! Run:   ./tunnels examples/second_dose.rule 8:0 3:1 3:2 3:1 3:1 3:2
mod tefuji;

use std::error::Error;
use tefuji::{Opened, Watch, DESK_MAX, TABLE_MAX};

fn main() -> Result<(), Box<dyn Error>> {
    let arguments: Vec<String> = std::env::args().skip(1).collect();
    let Some((path, posts)) = arguments.split_first() else {
        return Err("usage: tunnels RULE NUMBER:EVENT..".into());
    };
    let rule = std::fs::read(path)?;
    let mut table = vec![0; TABLE_MAX];
    let length = tefuji::build(&rule, &mut table)?;
    serve(Opened::open(&table[..length], 1)?, posts)
}

fn serve(opened: Opened, posts: &[String]) -> Result<(), Box<dyn Error>> {
    let mut desk = [Watch::BLANK; DESK_MAX];
    opened.fresh(&mut desk)?;
    for post in posts {
        let (number, event) = post.split_once(':').ok_or("a post is NUMBER:EVENT")?;
        let (number, event) = (number.parse()?, event.parse()?);
        // A refused event is said and left out; the desk is as it was.
        if let Err(refusal) = opened.post(&mut desk, number, event) {
            println!("{post}: {refusal}");
        }
    }
    let mut last = DESK_MAX - 1; // the first turn begins with tunnel 0
    while let Some(heard) = opened.turn(&mut desk, last)? {
        let reached = heard.reached;
        println!(
            "{}:{} leads to state {} {}",
            heard.number, heard.event, reached.state, reached.verdict
        );
        last = heard.number;
    }
    println!("none waits");
    tell_foreman(&desk);
    Ok(())
}

fn tell_foreman(desk: &[Watch]) {
    for (number, watch) in desk.iter().enumerate().filter(|(_, watch)| watch.heard > 0) {
        print!("tunnel {number} has heard {}, ", watch.heard);
        match watch.first_verdict() {
            None => println!("no verdict yet"),
            Some(0) => println!("verdict from the start"),
            Some(count) => println!("verdict since its event {count}"),
        }
    }
}
