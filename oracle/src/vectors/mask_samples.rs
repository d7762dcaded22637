//! Rules with a mask of the events that can happen.

use super::rule_samples::{edge_rules, longest_file, nexts, p12, p3, p9, rule, shared_nexts, P, Q};
use crate::mask::{self, Mask};
use crate::rule::{kind, Rule};

/// Every event over two signals but p and q together: document 02's valve block.
pub const APART: Mask = 0b0111;
/// Every event over three signals in which p and q are not together.
pub const APART_OF_THREE: Mask = 0b0111_0111;
/// Every event over three signals in which q is off.
pub const WITHOUT_Q: Mask = 0b0011_0011;
/// Every event over four signals but signal 3 alone.
pub const NOT_ALONE: Mask = 0xfeff;
/// Every event over four signals in which signals 0 to 2 do not show 7.
pub const BELOW_SEVEN: Mask = 0x7f7f;
/// Every event over four signals in which signal 3 is off.
pub const LOWER_HALF: Mask = 0x00ff;

/// always (p implies next (p and q))
pub fn due_together() -> Rule {
    let both = [P, Q, (kind::AND, 0, 1), (kind::NEXT, 2, 0)];
    rule(2, &[both.as_slice(), &[(kind::IMPLIES, 0, 3), (kind::ALWAYS, 4, 0)]].concat())
}

/// always not (p and q)
pub fn never_together() -> Rule {
    rule(2, &[P, Q, (kind::AND, 0, 1), (kind::NOT, 2, 0), (kind::ALWAYS, 3, 0)])
}

/// always (p implies (next (q or next q) and next next p)): a dose is acknowledged within two
/// events, and the next dose comes with the second.
pub fn dosing() -> Rule {
    let acknowledged = [P, Q, (kind::NEXT, 1, 0), (kind::OR, 1, 2), (kind::NEXT, 3, 0)];
    let repeated = [(kind::NEXT, 0, 0), (kind::NEXT, 5, 0)];
    let whole = [(kind::AND, 4, 6), (kind::IMPLIES, 0, 7), (kind::ALWAYS, 8, 0)];
    rule(2, &[acknowledged.as_slice(), &repeated, &whole].concat())
}

/// The same where dose and acknowledgement are never reported together.
pub fn valve_block() -> Rule {
    dosing().with_mask(APART)
}

/// Each mask over these signals.
fn with_each_mask(rule: Rule) -> impl Iterator<Item = Rule> {
    (1..=mask::full(rule.signals)).map(move |mask| rule.clone().with_mask(mask))
}

/// All of these that are not drawn.
pub fn masked_rules() -> Vec<Rule> {
    let mut rules = vec![valve_block(), due_together().with_mask(APART)];
    rules.extend([never_together(), p12()].map(|rule| rule.with_mask(APART)));
    rules.extend([p3(), p9()].into_iter().flat_map(with_each_mask));
    rules.extend([1, 2, 3].map(|mask| nexts(7).with_mask(mask)));
    let nexts = [APART_OF_THREE, WITHOUT_Q].map(|mask| shared_nexts(6).with_mask(mask));
    rules.extend(nexts);
    for mask in [NOT_ALONE, BELOW_SEVEN, LOWER_HALF, 65535, 1, 0x8000] {
        rules.extend(edge_rules().into_iter().map(|rule| rule.with_mask(mask)));
        rules.push(longest_file().with_mask(mask));
    }
    rules
}

#[cfg(test)]
mod tests {
    use super::*;

    #[test]
    fn every_masked_rule_is_read_back() {
        for rule in masked_rules() {
            assert_eq!(Rule::read(&rule.to_bytes()), Ok(rule));
        }
    }

    #[test]
    fn the_valve_block_is_that_of_the_examples() {
        let file = include_bytes!("../../../examples/valve_block.rule");
        assert_eq!(valve_block().to_bytes(), file);
        assert_eq!(dosing().to_bytes(), [&file[..6], &file[12..]].concat());
    }

    #[test]
    fn the_longest_file_with_a_mask_has_460_bytes() {
        let longest = masked_rules().iter().map(|rule| rule.to_bytes().len()).max();
        assert_eq!(longest, Some(460));
    }

    #[test]
    fn the_masks_leave_what_they_say() {
        assert!(mask::events(APART).eq([0, 1, 2]));
        assert!(mask::events(APART_OF_THREE).eq([0, 1, 2, 4, 5, 6]));
        assert!(mask::events(WITHOUT_Q).eq([0, 1, 4, 5]));
        assert!((0..16).filter(|&event| !mask::has(NOT_ALONE, event)).eq([8]));
        assert!((0..16).filter(|&event| !mask::has(BELOW_SEVEN, event)).eq([7, 15]));
        assert!(mask::events(LOWER_HALF).eq(0..8));
    }
}
