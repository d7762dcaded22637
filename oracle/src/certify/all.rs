//! The certification of many rules, and what it came to.

use std::collections::BTreeMap;
use std::fmt;
use std::sync::atomic::{AtomicUsize, Ordering};
use std::sync::Mutex;
use std::thread;

use super::{certify, moot_depth, Report};
use crate::mask;
use crate::rule::Rule;
use crate::search::Bounds;
use crate::table::Verdict;

/// How many rules are certified at a time.
const WORKERS: usize = 2;

/// Certifies the table of each rule; the first failure names its rule.
pub fn certify_all(tables: &[(&Rule, Vec<u8>)]) -> Result<Summary, String> {
    let next = AtomicUsize::new(0);
    let results = Mutex::new(BTreeMap::new());
    let work = || loop {
        let number = next.fetch_add(1, Ordering::Relaxed);
        let Some((rule, table)) = tables.get(number) else {
            return;
        };
        let result = certify(rule, table, Bounds::of(rule));
        let named = result.map_err(|reason| format!("{rule}: {reason}"));
        results.lock().expect("no worker panics").insert(number, named);
    };
    thread::scope(|scope| {
        for _ in 0..WORKERS {
            scope.spawn(work);
        }
    });
    let mut summary = Summary::default();
    let results = results.into_inner().expect("no worker panics");
    for ((rule, _), result) in tables.iter().zip(results.into_values()) {
        summary.add(rule, &result?);
    }
    Ok(summary)
}

/// The rules with as many events that can happen, and so the same bounds.
#[derive(Clone, Debug, Default)]
struct Searched {
    rules: usize,
    lists: usize,
    longest_list: usize,
    longest_lasso: usize,
}

/// What was certified, without a failure.
#[derive(Clone, Debug, Default)]
pub struct Summary {
    states: [usize; 4],
    /// Rules with a mask, and those with one that leaves not all events.
    masked: usize,
    partial: usize,
    /// By number of states: how many tables have it.
    sizes: BTreeMap<usize, usize>,
    /// By how many events can happen.
    searched: BTreeMap<usize, Searched>,
}

impl Summary {
    fn add(&mut self, rule: &Rule, report: &Report) {
        self.masked += usize::from(rule.mask.is_some());
        self.partial += usize::from(rule.possible() != mask::full(rule.signals));
        for (sum, count) in self.states.iter_mut().zip(report.states) {
            *sum += count;
        }
        *self.sizes.entry(report.states.iter().sum()).or_default() += 1;
        let searched = self.searched.entry(report.events).or_default();
        searched.rules += 1;
        searched.lists += report.lists;
        searched.longest_list = searched.longest_list.max(report.longest_list);
        searched.longest_lasso = searched.longest_lasso.max(report.longest_lasso);
    }

    pub fn rules(&self) -> usize {
        self.sizes.values().sum()
    }
}

impl fmt::Display for Summary {
    fn fmt(&self, out: &mut fmt::Formatter<'_>) -> fmt::Result {
        let [undecided, satisfied, violated, moot] = self.states;
        let states = undecided + satisfied + violated + moot;
        writeln!(out, "certified {} rules with {states} states:", self.rules())?;
        writeln!(
            out,
            "  {} {undecided}, {} {satisfied}, {} {violated}, {} {moot}",
            Verdict::Undecided,
            Verdict::Satisfied,
            Verdict::Violated,
            Verdict::Moot
        )?;
        writeln!(
            out,
            "  with a mask {}, of which {} leave not all events",
            self.masked, self.partial
        )?;
        write!(out, "  tables by states:")?;
        for (states, tables) in &self.sizes {
            write!(out, " {states}:{tables}")?;
        }
        for (&events, searched) in &self.searched {
            write!(out, "\n  events {events}: {} rules, ", searched.rules)?;
            write!(out, "{}; behind moot {} events; ", Bounds::over(events), moot_depth(events))?;
            write!(out, "{} lists, longest {}; ", searched.lists, searched.longest_list)?;
            write!(out, "longest lasso needed {}", searched.longest_lasso)?;
        }
        write!(out, "\n  no rule ran into the bounds")
    }
}
