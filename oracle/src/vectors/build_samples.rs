//! The questions of the build stream about rules made at random.

use std::collections::HashSet;

use super::build_cases::{Question, ROOM};
use crate::builder;
use crate::random_masks::Leaving;
use crate::random_rules::Shape;
use crate::rng::Rng;
use crate::rule::Rule;

const SEED: u64 = 0x5eed_0000_0000_0003;
const RULES: usize = 2100;
const MASKED_SEED: u64 = 0x5eed_0000_0000_0005;
/// How many rules have a mask that leaves as many events, for each such number.
const MASKED_RULES: usize = 200;

/// A question about each of so many different rules, those without a mask first.
pub fn random_questions() -> Vec<Question> {
    let mut rng = Rng::new(SEED);
    let plain = |rng: &mut Rng| Shape::searchable().draw_interesting(rng);
    let mut questions = about_different_rules(&mut rng, RULES, plain);
    let mut rng = Rng::new(MASKED_SEED);
    for leaving in Leaving::EACH {
        let masked = |rng: &mut Rng| masked_shape(leaving).draw_masked(rng, leaving);
        questions.extend(about_different_rules(&mut rng, MASKED_RULES, masked));
    }
    questions
}

/// The rules that the search can judge, where the mask leaves as many events.
fn masked_shape(leaving: Leaving) -> Shape {
    let signals = match leaving {
        Leaving::One | Leaving::Two | Leaving::Half => 1..=4,
        _ => 1..=3,
    };
    Shape { signals, ..Shape::searchable() }
}

/// So many questions.
fn about_different_rules(
    rng: &mut Rng,
    count: usize,
    draw: impl Fn(&mut Rng) -> Rule,
) -> Vec<Question> {
    let mut files = HashSet::new();
    let mut questions = Vec::new();
    while questions.len() < count {
        let rule = draw(rng);
        if files.insert(rule.to_bytes()) {
            questions.push(random_question(rng, rule));
        }
    }
    questions
}

/// Mostly with room for the table and a run over good events.
fn random_question(rng: &mut Rng, rule: Rule) -> Question {
    let output = random_output(rng, &rule);
    let possible = rule.events();
    let mut events: Vec<u8> = (0..rng.between(0, 8)).map(|_| *rng.pick(&possible)).collect();
    let event_count = 1 << rule.signals;
    if !events.is_empty() && rng.chance(4) {
        let place = rng.below(events.len());
        events[place] = rng.between(event_count, 255) as u8;
    }
    if !events.is_empty() && possible.len() < event_count && rng.chance(20) {
        let place = rng.below(events.len());
        let impossible = (0..event_count as u8).filter(|event| !possible.contains(event));
        events[place] = *rng.pick(&Vec::from_iter(impossible));
    }
    Question { rule, output, events }
}

/// Any room, just enough, or one byte too few.
fn random_output(rng: &mut Rng, rule: &Rule) -> u16 {
    let length = builder::build(&rule.to_bytes(), &mut [0; ROOM as usize]).map_or(0, |n| n as u16);
    match rng.below(20) {
        0 => length.saturating_sub(1),
        1..=4 => length,
        5..=9 => length + rng.between(1, 20) as u16,
        _ => ROOM,
    }
}

#[cfg(test)]
mod tests {
    use super::*;
    use crate::mask;
    use crate::random_rules::is_changed_by_its_mask;
    use crate::rule::FormulaNode;

    fn table(rule: &Rule) -> Option<Vec<u8>> {
        let mut output = [0; ROOM as usize];
        let length = builder::build(&rule.to_bytes(), &mut output).ok()?;
        Some(output[..length].to_vec())
    }

    /// How many rules have an upper count of this sort without which their table is another.
    fn rules_with_an_upper_count(is_it: impl Fn(FormulaNode) -> bool) -> usize {
        let matters = |rule: &Rule, number: usize| {
            let mut without = rule.clone();
            let upper = without.nodes[number].third.take();
            upper.is_some() && is_it(rule.nodes[number]) && table(rule) != table(&without)
        };
        let questions = random_questions();
        let rules = questions.iter().map(|question| &question.rule);
        rules.filter(|rule| (0..rule.nodes.len()).any(|number| matters(rule, number))).count()
    }

    #[test]
    fn upper_counts_decide_the_tables_of_many_rules() {
        assert!(rules_with_an_upper_count(|_| true) >= 300);
        assert!(rules_with_an_upper_count(|node| node.second == 0) >= 200);
        assert!(rules_with_an_upper_count(|node| node.second == node.upper()) >= 100);
    }

    /// Those with a mask that leaves not all events.
    fn masked_rules() -> Vec<Rule> {
        let rules = random_questions().into_iter().map(|question| question.rule);
        rules.filter(|rule| rule.possible() != mask::full(rule.signals)).collect()
    }

    #[test]
    fn masks_leave_every_number_of_events_up_to_eight() {
        let rules = masked_rules();
        assert!(rules.len() >= 900);
        for count in 1..=8 {
            let is_it = |rule: &&Rule| rule.events().len() == count;
            assert!(rules.iter().filter(is_it).count() >= 5, "{count} events");
        }
        let without_event_0 = |rule: &&Rule| rule.possible() & 1 == 0;
        assert!(rules.iter().filter(without_event_0).count() >= 300);
    }

    #[test]
    fn masks_decide_the_tables_of_many_rules() {
        let rules = masked_rules();
        let changed = rules.iter().filter(|rule| is_changed_by_its_mask(rule));
        let several = changed.clone().filter(|rule| rule.events().len() > 1);
        assert!(changed.count() >= 350 && several.count() >= 200);
    }

    #[test]
    fn there_are_at_least_2000_different_rules() {
        let questions = random_questions();
        let files: HashSet<Vec<u8>> =
            questions.iter().map(|question| question.rule.to_bytes()).collect();
        assert!(files.len() >= 2000);
        assert_eq!(files.len(), questions.len());
    }
}
