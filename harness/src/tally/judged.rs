//! What a single pair of recordings met, in the words under which it is counted.

use std::collections::BTreeSet;

use oracle::counted::{number_of, Counted, Halt};
use oracle::mask;
use oracle::recordings::{self, are_listed, completion_count, completions, ended, events};
use oracle::recordings::{Fault, Seen, Side};
use oracle::refusal::Refusal;
use oracle::table::{Monitor, Verdict};

use crate::answer;
use crate::case::Recordings;

/// So many completions are not run one after the other.
const MANY: usize = 4096;

/// Two recordings over a table, and what came of them.
pub struct Judged<'a> {
    pub table: &'a [u8],
    /// The table, if it is good.
    pub monitor: Option<&'a Monitor>,
    pub pair: &'a Recordings,
    pub answer: Result<Verdict, Refusal>,
}

/// Words, each with whether they hold.
type Words = Vec<(bool, &'static str)>;

impl Judged<'_> {
    pub fn words(&self) -> Vec<&'static str> {
        let all = match self.answer {
            Err(refusal) => self.refused(refusal),
            Ok(verdict) => self.answered(verdict),
        };
        all.into_iter().filter(|(is_so, _)| *is_so).map(|(_, words)| words).collect()
    }

    /// The opening of a good table, with the number that was given.
    fn own(&self) -> Option<u64> {
        Some(answer::opened(self.monitor?, number_of(self.pair.opened)))
    }

    /// The table by the opening that was given, if it fits.
    fn counted(&self) -> Option<Counted<'_>> {
        Counted::new(self.table, self.pair.opened)
    }

    /// The same, or else by the table's own.
    fn table(&self) -> Option<Counted<'_>> {
        self.counted().or_else(|| Counted::new(self.table, self.own()?))
    }

    /// The events that both recordings have, whatever the lengths.
    fn pairs(&self) -> Vec<(Seen, Seen)> {
        events(&self.pair.first).zip(events(&self.pair.second)).collect()
    }

    /// The wrong events of these, each with its index and all that is wrong with it.
    fn wrong(&self) -> Vec<(usize, Vec<Fault>)> {
        let Some(table) = self.table() else {
            return Vec::new();
        };
        let faults = |(first, second)| recordings::faults(&table, first, second);
        let all = self.pairs().into_iter().map(faults).enumerate();
        all.filter(|(_, faults)| !faults.is_empty()).collect()
    }

    fn refused(&self, refusal: Refusal) -> Words {
        match refusal.number {
            22 => self.lengths(),
            12 | 23 => self.wrong_event(refusal.place),
            _ if self.counted().is_none() => self.no_table(),
            _ => self.way(),
        }
    }

    fn no_table(&self) -> Words {
        let numbers: Vec<u8> = self.wrong().iter().map(|(_, faults)| faults[0].number()).collect();
        let fits = recordings::lengths_fit(&self.pair.first, &self.pair.second);
        vec![
            (true, "14 by counts or length"),
            (!fits, "14 before 22"),
            (numbers.first() == Some(&12), "14 before 12"),
            (numbers.first() == Some(&23), "14 before 23"),
        ]
    }

    fn lengths(&self) -> Words {
        let lengths = [self.pair.first.len(), self.pair.second.len()];
        let (is_odd, apart) =
            (lengths.map(|length| length % 2 == 1), lengths[0].abs_diff(lengths[1]));
        let wrong = self.wrong();
        let has = |number: u8| wrong.iter().any(|(_, faults)| faults[0].number() == number);
        let table = self.counted();
        let leaves = table.is_some_and(|table| self.leaving(&table, self.pairs().len()).is_some());
        vec![
            (is_odd == [true; 2] && apart == 0, "22 by two odd lengths, the same"),
            (is_odd == [true; 2] && apart == 2, "22 by two odd lengths, 2 apart"),
            (is_odd == [true, false] && apart == 1, "22 by 1 apart, the first odd"),
            (is_odd == [false, true] && apart == 1, "22 by 1 apart, the second odd"),
            (is_odd == [false; 2] && apart == 2 && lengths[0] > lengths[1], "22 by 2 less"),
            (is_odd == [false; 2] && apart == 2 && lengths[0] < lengths[1], "22 by 2 more"),
            (is_odd == [false; 2] && apart == 256, "22 by 256 apart"),
            (lengths.contains(&0), "22 by no event and some"),
            (has(12), "22 before 12"),
            (has(23), "22 before 23"),
            (wrong.is_empty(), "22 alone"),
            (leaves, "22 before 14 by a way"),
        ]
    }

    fn wrong_event(&self, place: usize) -> Words {
        let (Some(table), wrong) = (self.counted(), self.wrong()) else {
            return Vec::new();
        };
        let faults = &wrong[0].1;
        let (first, second) = self.pairs()[place];
        let is_one = |fault: Fault| faults == &[fault];
        let is_alone = is_one(Fault::NoCompletion);
        let none = Seen { known: 0, values: 0 };
        let can_be = |seen: Seen| recordings::choices(&table, seen, none).next().is_some();
        let all = (1 << table.signals) - 1;
        let (known, last) = (first.known | second.known, self.pairs().len() - 1);
        let different = first.known & second.known & (first.values ^ second.values);
        let is_23 = faults[0] == Fault::Contradiction;
        let words = vec![
            (is_one(Fault::HighKnown(Side::First)), "12 by a high bit known to the first"),
            (is_one(Fault::HighKnown(Side::Second)), "12 by a high bit known to the second"),
            (is_one(Fault::HighValue(Side::First)), "12 by a high value bit of the first"),
            (is_one(Fault::HighValue(Side::Second)), "12 by a high value bit of the second"),
            (is_one(Fault::UnknownValue(Side::First)), "12 by an unknown value of the first"),
            (is_one(Fault::UnknownValue(Side::Second)), "12 by an unknown value of the second"),
            (is_alone, "12 by no completion"),
            (
                is_alone && can_be(first) && can_be(second),
                "12 by no completion, each by itself has",
            ),
            (is_alone && known != all, "12 by no completion with a gap"),
            (table.possible == 0, "12 where no event can happen"),
            (is_one(Fault::Contradiction), "23 alone"),
            (is_23 && different.count_ones() == 1 && known == all, "23 by one signal of all"),
            (is_23 && different << 1 == all + 1 && all > 1, "23 by the highest signal"),
            (is_23 && different & 1 == 0, "23, the lowest signal is the same"),
            (
                faults[0].number() == 12 && faults.contains(&Fault::Contradiction),
                "12 and 23 of one event",
            ),
            (
                faults == &[Fault::Contradiction, Fault::NoCompletion],
                "23 and no completion of one event",
            ),
            (place > 0 && place == last, "12 or 23 at the last event"),
            (place == 0 && last > 0, "12 or 23 at the first event"),
            (place > 255 && !is_23, "12 past event 255"),
            (place > 255 && is_23, "23 past event 255"),
        ];
        [words, self.later(&wrong), self.left_before(&table, place, faults[0])].concat()
    }

    /// What is wrong with later events.
    fn later(&self, wrong: &[(usize, Vec<Fault>)]) -> Words {
        let kind = |faults: &[Fault]| match faults[0] {
            Fault::Contradiction => "23",
            Fault::NoCompletion => "none",
            _ => "12",
        };
        let later: Vec<&str> = wrong[1..].iter().map(|(_, faults)| kind(faults)).collect();
        let is = |first: &str, then: &str| kind(&wrong[0].1) == first && later.contains(&then);
        vec![
            (is("12", "23"), "12 with a later 23"),
            (is("12", "none"), "12 with a later event without completion"),
            (is("23", "12"), "23 with a later 12"),
            (is("23", "none"), "23 with a later event without completion"),
            (is("none", "12"), "no completion with a later 12"),
            (is("none", "23"), "no completion with a later 23"),
        ]
    }

    /// Whether a way had left the table before the event that is refused.
    fn left_before(&self, table: &Counted, place: usize, fault: Fault) -> Words {
        let is_left = self.leaving(table, place).is_some();
        vec![
            (is_left && fault == Fault::Contradiction, "23 after a way left"),
            (is_left && fault == Fault::NoCompletion, "no completion after a way left"),
            (
                is_left && fault.number() == 12 && fault != Fault::NoCompletion,
                "12 after a way left",
            ),
        ]
    }

    /// The choices of the first events, if none of them is refused.
    fn choices(&self, table: &Counted, count: usize) -> Option<Vec<Vec<u8>>> {
        let [first, second] = [&self.pair.first, &self.pair.second].map(|all| &all[..2 * count]);
        recordings::joined(table, first, second).ok()
    }

    /// Behind how many of the first events a way first leaves the table, and why. A good one is
    /// never left.
    fn leaving(&self, table: &Counted, count: usize) -> Option<(usize, Vec<Halt>)> {
        if self.own() == Some(self.pair.opened) {
            return None;
        }
        if table.verdict(0).is_none() {
            return Some((0, vec![Halt::NoVerdict]));
        }
        let mut set = BTreeSet::from([0]);
        for (index, choices) in self.choices(table, count)?.iter().enumerate() {
            let steps = set.iter().flat_map(|&state| choices.iter().map(move |&e| (state, e)));
            let (ends, halts): (Vec<_>, Vec<_>) =
                steps.map(|(state, event)| table.step(state, event)).partition(Result::is_ok);
            if !halts.is_empty() {
                return Some((index + 1, halts.into_iter().filter_map(Result::err).collect()));
            }
            set = ends.into_iter().flatten().map(|end| end.end_state).collect();
        }
        None
    }

    /// A way leaves the table, and nothing else is wrong.
    fn way(&self) -> Words {
        let count = self.pairs().len();
        let Some(table) = self.counted() else {
            return Vec::new();
        };
        let (Some((left, halts)), Some(choices)) =
            (self.leaving(&table, count), self.choices(&table, count))
        else {
            return Vec::new();
        };
        let stays = are_listed(&choices)
            && completions(&choices).any(|list| ended(&table, &list).is_some());
        let only = |halt: Halt| left > 0 && halts.iter().all(|&other| other == halt);
        vec![
            (left == 0 && count == 0, "14 by the start, no event"),
            (left == 0 && count > 0, "14 by the start, and events"),
            (only(Halt::NoVerdict) && left < count, "14 by a verdict byte on the way"),
            (only(Halt::NoVerdict) && left == count, "14 by the last verdict byte"),
            (only(Halt::MissingSuccessor), "14 by a missing successor"),
            (only(Halt::SuccessorPastTheStates), "14 by a successor past the states"),
            (stays, "14 on some ways only"),
            (completion_count(&choices) == 1, "14 on the only way"),
        ]
    }

    fn answered(&self, verdict: Verdict) -> Words {
        let Some(table) = self.counted() else {
            return Vec::new();
        };
        let Some(choices) = self.choices(&table, self.pairs().len()) else {
            return Vec::new();
        };
        [self.judged(&table, &choices, verdict), self.went(&table, &choices, verdict)].concat()
    }

    /// What was answered, and of how much that was known.
    fn judged(&self, table: &Counted, choices: &[Vec<u8>], verdict: Verdict) -> Words {
        let pairs = self.pairs();
        let (count, completions) = (pairs.len(), completion_count(choices));
        let (number, is_one) = (table.number, completions == 1);
        let is = |other: Verdict| verdict == other;
        let knows = |pick: fn(&(Seen, Seen)) -> u8| pairs.iter().any(|pair| pick(pair) != 0);
        let is_unknown = count > 0 && !knows(|(first, second)| first.known | second.known);
        let is_masked = table.possible != mask::full(table.signals);
        vec![
            (count == 0 && is(Verdict::Undecided), "no event, undecided"),
            (count == 0 && is(Verdict::Satisfied), "no event, satisfied"),
            (count == 0 && is(Verdict::Violated), "no event, violated"),
            (count == 0 && is(Verdict::Moot), "no event, moot"),
            (count > 0 && is_one && is(Verdict::Undecided), "one completion, undecided"),
            (count > 0 && is_one && is(Verdict::Satisfied), "one completion, satisfied"),
            (count > 0 && is_one && is(Verdict::Violated), "one completion, violated"),
            (count > 0 && is_one && is(Verdict::Moot), "one completion, moot"),
            (!is_one && is(Verdict::Satisfied), "several completions, satisfied"),
            (!is_one && is(Verdict::Violated), "several completions, violated"),
            (!is_one && is(Verdict::Moot), "several completions, moot"),
            (completions > MANY, "more than 4096 completions"),
            (completions > MANY && !is(Verdict::Undecided), "more than 4096, decided"),
            (is_unknown && is(Verdict::Undecided), "nothing known, undecided"),
            (is_unknown && !is(Verdict::Undecided), "nothing known, decided"),
            (is_unknown && is_masked, "nothing known, with impossible events"),
            (is_masked && !is_one, "several completions, with impossible events"),
            (!is_one && knows(|(first, second)| first.known & second.known), "known to both"),
            (
                knows(|(a, _)| a.known)
                    && knows(|(_, b)| b.known)
                    && !knows(|(a, b)| a.known & b.known),
                "each knows what the other does not",
            ),
            (self.monitor.is_none() && !is_one, "over what is no table"),
            (number == 0, "with the number 0"),
            (number == 65535, "with the number 65535"),
            (number != 0 && number != 65535, "with another number"),
            (count == 255, "255 events"),
            (count == 256, "256 events"),
            (count == 257, "257 events"),
            (count >= 1000, "1000 events and more"),
        ]
    }

    /// In which states the runs stood, and what they ended with.
    fn went(&self, table: &Counted, choices: &[Vec<u8>], verdict: Verdict) -> Words {
        let Some(sets) = recordings::sets(table, choices) else {
            return Vec::new();
        };
        let count = choices.len();
        let shows = |state: &u16| table.verdict(*state).map_or(0, Verdict::to_byte);
        let ends: BTreeSet<u8> = sets[count].iter().map(shows).collect();
        let is_passed = |set: &BTreeSet<u16>| {
            let mut all = set.iter().map(shows);
            let first = all.next().filter(|&first| first > 0 && first != verdict.to_byte());
            first.is_some_and(|first| all.all(|other| other == first))
        };
        let nothing_leaves = |state: &u16| {
            let mut all = mask::events(table.possible);
            all.all(|event| table.step(*state, event).is_ok_and(|end| end.end_state == *state))
        };
        let largest = sets.iter().map(BTreeSet::len).max().unwrap_or(0);
        let is_early = || sets[..count].iter().any(|set| set.iter().any(nothing_leaves));
        let is_256 = table.states == 256 && largest > 1;
        vec![
            (ends == BTreeSet::from([0]) && largest > 1, "several completions, all undecided"),
            (ends.len() > 1 && !ends.contains(&0), "different verdicts, none undecided"),
            (ends.len() > 1 && ends.contains(&0), "a verdict and undecided"),
            (is_by_one(table, choices), "different verdicts by one completion alone"),
            (ends.len() > 1 && is_early(), "different verdicts, one from where nothing leads"),
            (sets[..count].iter().any(is_passed), "past a verdict of all"),
            (is_256, "of 256 states"),
            (is_256 && sets.iter().any(|set| set.contains(&255)), "through state 255"),
            (is_256 && sets[count].contains(&255), "ending in state 255"),
            (largest > 64, "more than 64 states at once"),
            (largest > 128, "more than 128 states at once"),
            (sets.windows(2).any(|two| two[1].len() < two[0].len()), "fewer states than before"),
        ]
    }
}

/// Whether all completions of a few events, of which there are many, end with one verdict, but for
/// a single one.
fn is_by_one(table: &Counted, choices: &[Vec<u8>]) -> bool {
    if choices.len() > 3 || completion_count(choices) < 8 || !are_listed(choices) {
        return false;
    }
    let ends: Vec<Option<Verdict>> = completions(choices).map(|list| ended(table, &list)).collect();
    let share = |verdict: &Verdict| ends.iter().filter(|&&end| end == Some(*verdict)).count();
    Verdict::DECIDED.iter().any(|verdict| share(verdict) + 1 == ends.len())
}
