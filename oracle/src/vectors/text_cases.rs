//! The cases of the rule text stream.

use std::fmt::Write;

use super::text_samples::{self as samples, Plan, Tree};
use super::text_watched::{long_texts, refused, repeated, FITTING, MISFITS, SECOND_DOSE, STOPPING};
use super::{append_counted, Case};
use crate::refusal::Refusal;
use crate::rng::Rng;
use crate::rule_text::{self, LONGEST_FILE, TEXT_LIMIT};

const SEED: u64 = 0x5eed_0000_0000_0004;
const LONGEST_TEXT: usize = 4096;
const LARGEST_ROOM: u16 = 600;
/// The value of an output byte before the call.
const PAINT: u8 = 165;
/// The numbers by which a text is refused, the first that applies first.
const ORDER: [u8; 6] = [15, 4, 16, 7, 8, 10];

pub struct TextCase {
    pub text: Vec<u8>,
    pub signals: u8,
    /// The length of the output.
    pub room: u16,
}

impl TextCase {
    fn answer(&self) -> (Result<usize, Refusal>, Vec<u8>) {
        let mut output = vec![PAINT; self.room.into()];
        (rule_text::write(&self.text, self.signals, &mut output), output)
    }
}

impl Case for TextCase {
    fn append_to(&self, stream: &mut Vec<u8>) {
        append_counted(stream, &self.text);
        stream.push(self.signals);
        stream.extend(self.room.to_le_bytes());
    }

    fn expected_line(&self) -> String {
        let (answer, output) = self.answer();
        let mut line = match answer {
            Ok(length) => length.to_string(),
            Err(refusal) => refusal.to_string(),
        };
        line.push(' ');
        output.iter().for_each(|byte| write!(line, "{byte:02x}").expect("a string takes all"));
        line
    }
}

/// Gathers cases. A case made for one answer is held against the reader.
struct TextCases {
    rng: Rng,
    cases: Vec<TextCase>,
}

/// Every case, always the same ones; each refusal at least 20 times.
pub fn all() -> Vec<TextCase> {
    let mut gathered = TextCases { rng: Rng::new(SEED), cases: Vec::new() };
    gathered.add_watched();
    gathered.add_pairs_of_signs();
    gathered.add_long();
    gathered.add_faults_together();
    gathered.add_good_texts();
    gathered.add_large_texts();
    gathered.add_limits_of_nodes();
    gathered.add_limits_of_temporal_signs();
    gathered.add_signals_out_of_range();
    gathered.add_cuts();
    gathered.add_signs_put_in();
    gathered.add_single_bytes();
    gathered.add_spoilt_texts();
    gathered.add_wandering();
    gathered.add_soup();
    gathered.assert_numbers();
    gathered.cases
}

impl TextCases {
    fn add(&mut self, text: impl Into<Vec<u8>>, signals: u8, room: usize) {
        let text = text.into();
        let room = u16::try_from(room).expect("a room counts in two bytes");
        assert!(text.len() <= LONGEST_TEXT && room <= LARGEST_ROOM);
        self.cases.push(TextCase { text, signals, room });
    }

    fn add_answered(
        &mut self,
        text: impl Into<Vec<u8>>,
        signals: u8,
        room: usize,
        answer: Result<usize, Refusal>,
    ) {
        self.add(text, signals, room);
        let case = self.cases.last().expect("a case was added");
        assert_eq!(case.answer().0, answer, "{:?}", String::from_utf8_lossy(&case.text));
    }

    /// Adds a text with a room about as long as its file, or a small one.
    fn add_with_some_room(&mut self, text: Vec<u8>, signals: u8) {
        let room = match rule_text::file_of(&text, signals) {
            Err(_) => self.rng.below(9),
            Ok(file) => match self.rng.below(20) {
                0 => 0,
                1..=2 => file.len() - 1,
                3 => self.rng.below(file.len()),
                4..=6 => file.len() + self.rng.between(1, 12),
                _ => file.len(),
            },
        };
        self.add(text, signals, room);
    }

    /// What is easily read wrongly, with the answers worked out by hand.
    fn add_watched(&mut self) {
        for (text, signals, length) in FITTING {
            for room in [length, length + 3] {
                self.add_answered(text, signals, room, Ok(length));
            }
            for room in [length - 1, 0] {
                self.add_answered(text, signals, room, refused(10, 0));
            }
        }
        for text in STOPPING {
            self.add_answered(text, 4, 2, refused(15, text.len()));
        }
        for (text, place) in MISFITS {
            self.add_answered(text, 4, 2, refused(15, place));
        }
        let room = usize::from(LARGEST_ROOM);
        self.add_answered(SECOND_DOSE, 2, room, Ok(48));
        self.add_answered("s0 &", 2, room, refused(15, 4));
        self.add_answered("s2", 2, room, refused(7, 0));
    }

    /// Each two binary signs, both ways, with brackets and without.
    fn add_pairs_of_signs(&mut self) {
        let signs = ["U", "&", "^", "|", "->", "<->"];
        for first in signs {
            for second in signs {
                for text in [
                    format!("s0 {first} s1 {second} s2"),
                    format!("(s0{first}s1){second}s2"),
                    format!("s0 {first}(s1 {second} s2)"),
                    format!("Xs0{first} !s1 {second}G s2"),
                ] {
                    let nodes = if text.contains('X') { 8 } else { 5 };
                    let length = 6 + (nodes - 2) * 5 + 2 * 6;
                    self.add_answered(text, 3, length, Ok(length));
                }
            }
        }
    }

    /// Lengths about the limit, by hand.
    fn add_long(&mut self) {
        for (parts, answer) in long_texts() {
            let room = if answer.is_ok() { 11 } else { 3 };
            self.add_answered(repeated(&parts), 1, room, answer);
            if answer == refused(15, TEXT_LIMIT) {
                self.add_answered(repeated(&parts), 0, 0, answer);
            }
        }
        for length in [TEXT_LIMIT + 1, LONGEST_TEXT] {
            for byte in [0, b' ', b'(', b')', b's', 255] {
                let signals = self.rng.byte_below(6);
                self.add_answered(vec![byte; length], signals, 1, refused(15, TEXT_LIMIT));
            }
        }
    }

    /// Each choice of faults: refused by the first of them in the order.
    fn add_faults_together(&mut self) {
        for choice in 0..1 << ORDER.len() {
            let has = |number: u8| {
                ORDER
                    .iter()
                    .enumerate()
                    .any(|(bit, &other)| other == number && choice >> bit & 1 == 1)
            };
            let signal = if has(7) { "s3" } else { "s0" };
            let nots = if has(16) { 60 } else { 2 };
            let nexts = if has(8) { 8 } else { 7 };
            let rest = if has(15) { " )" } else { " " };
            let text = repeated(&[("X", nexts), ("!", nots), (signal, 1), (rest, 1)]);
            let length = 6 + 5 * (nexts + nots + 1);
            let signals = if has(4) { *self.rng.pick(&[0, 5, 6, 128, 255]) } else { 3 };
            let room = if has(10) { self.rng.below(length.min(9)) } else { length };
            let answer = match ORDER.into_iter().find(|&number| has(number)) {
                None => Ok(length),
                Some(15) => refused(15, text.len() - 1),
                Some(number) => refused(number, 0),
            };
            self.add_answered(text, signals, room, answer);
        }
    }

    fn add_tree(&mut self, plan: Plan, signals: u8) {
        let tree = Tree::random(&mut self.rng, plan);
        let percent = *self.rng.pick(&[0, 0, 10, 30]);
        let signs = tree.signs(&mut self.rng, percent);
        let text = samples::spaced(&mut self.rng, &signs);
        if text.len() <= TEXT_LIMIT {
            assert_eq!(rule_text::read(&text), Ok(tree.nodes()), "{signs:?}");
        }
        self.add_with_some_room(text, signals);
    }

    fn add_good_texts(&mut self) {
        for _ in 0..1300 {
            let limit = *self.rng.pick(&[3, 6, 12, 20]);
            let plan = samples::short_plan(&mut self.rng, limit);
            self.add_tree(plan, plan.signals);
        }
    }

    fn add_large_texts(&mut self) {
        for _ in 0..60 {
            let plan =
                Plan { nodes: self.rng.between(30, 64), ..samples::short_plan(&mut self.rng, 1) };
            self.add_tree(plan, plan.signals);
        }
        for _ in 0..20 {
            let plan = Plan { nodes: self.rng.between(120, 330), signals: 2, temporal: 7 };
            self.add_tree(plan, 2);
        }
    }

    fn add_limits_of_nodes(&mut self) {
        for nodes in [63, 64, 65, 66] {
            for _ in 0..12 {
                self.add_tree(Plan { nodes, signals: 3, temporal: 7 }, 3);
            }
        }
        let nots = |count| repeated(&[("!", count), ("s0", 1)]);
        let ands = |count| repeated(&[("s0 & ", count), ("!s0", 1)]);
        self.add_answered(nots(63), 1, 326, Ok(326));
        self.add_answered(nots(64), 1, 326, refused(16, 0));
        self.add_answered(ands(31), 1, LONGEST_FILE, Ok(LONGEST_FILE));
        self.add_answered(ands(31), 1, LONGEST_FILE - 1, refused(10, 0));
        self.add_answered(ands(32), 1, LONGEST_FILE, refused(16, 0));
    }

    /// As many temporal signs as there may be, and one more.
    fn add_limits_of_temporal_signs(&mut self) {
        for sign in ["X", "F", "G", "s0U", "s1 U X F ", "!G X"] {
            let temporal = sign.matches(['X', 'F', 'G', 'U']).count();
            for count in 1..=9 {
                let text = repeated(&[(sign, count), ("s0", 1)]);
                let fits = temporal * count <= 7;
                self.add_with_some_room(text.clone(), 2);
                let room = if fits { 0 } else { LONGEST_FILE };
                self.add_answered(text, 2, room, refused(if fits { 10 } else { 8 }, 0));
            }
        }
        for _ in 0..60 {
            let plan = Plan { nodes: self.rng.between(20, 40), signals: 4, temporal: 9 };
            self.add_tree(plan, 4);
        }
    }

    /// Signals that are and are not below the number of signals, and numbers that are none.
    fn add_signals_out_of_range(&mut self) {
        for signals in [0, 1, 2, 3, 4, 5, 255] {
            for signal in ["s0", "s1", "s2", "s3"] {
                self.add_with_some_room(signal.into(), signals);
                self.add_with_some_room(format!("true U (s0 & !{signal})").into(), signals);
            }
        }
        for _ in 0..100 {
            let plan = Plan { signals: 4, ..samples::short_plan(&mut self.rng, 8) };
            let signals = *self.rng.pick(&[0, 1, 1, 2, 2, 3, 3, 5, 200]);
            self.add_tree(plan, signals);
        }
    }

    /// Every beginning of a few texts.
    fn add_cuts(&mut self) {
        let others =
            ["(true<->!false)->s0^s1|s2&s3", "F(s0) U( ( s1 <-> false ) )", " X(G s0->s1) "];
        for text in others.into_iter().chain([SECOND_DOSE]) {
            for length in 0..=text.len() {
                self.add_with_some_room(text[..length].into(), 4);
            }
        }
    }

    /// Signs and bytes before each byte of a text, or instead of it.
    fn add_signs_put_in(&mut self) {
        let put = [
            "s1", "true", "!", "U", "&", "->", "<->", "(", ")", " ", "s", "t", "-", "<", ">", "0",
            "\n",
        ];
        for place in 0..=SECOND_DOSE.len() {
            let (before, after) = SECOND_DOSE.split_at(place);
            for sign in put {
                self.add_with_some_room([before, sign, after].concat().into(), 2);
            }
            if let Some(byte) = after.chars().next() {
                let sign = *self.rng.pick(&put);
                let rest = &after[byte.len_utf8()..];
                self.add_with_some_room([before, sign, rest].concat().into(), 2);
                self.add_with_some_room([before, rest].concat().into(), 2);
            }
        }
    }

    /// Each byte where an operand is due and where one has ended.
    fn add_single_bytes(&mut self) {
        for byte in 0..=255 {
            self.add(vec![byte], 1, 0);
            self.add(vec![b's', b'0', byte], 1, 0);
        }
    }

    fn add_spoilt_texts(&mut self) {
        for _ in 0..1100 {
            let limit = *self.rng.pick(&[3, 6, 12, 20]);
            let plan = samples::short_plan(&mut self.rng, limit);
            let mut text = samples::random_text(&mut self.rng, plan);
            samples::spoil(&mut self.rng, &mut text);
            self.add_with_some_room(text, plan.signals);
        }
        for _ in 0..30 {
            let plan = Plan { nodes: self.rng.between(60, 200), signals: 2, temporal: 7 };
            let mut text = samples::random_text(&mut self.rng, plan);
            samples::spoil(&mut self.rng, &mut text);
            self.add_with_some_room(text, 2);
        }
    }

    fn add_wandering(&mut self) {
        for _ in 0..500 {
            let count = self.rng.between(1, 14);
            let text = samples::wandering(&mut self.rng, count);
            self.add_with_some_room(text, 4);
        }
    }

    fn add_soup(&mut self) {
        for _ in 0..250 {
            let count = self.rng.between(1, 8);
            let text = samples::soup_of_signs(&mut self.rng, count);
            self.add_with_some_room(text, 4);
            let text = samples::soup_of_bytes(&mut self.rng, count);
            self.add_with_some_room(text, 4);
        }
        for _ in 0..80 {
            let count = self.rng.between(0, 20);
            let text = self.rng.bytes(count);
            self.add_with_some_room(text, 4);
        }
    }

    /// So many texts, and each refusal often enough.
    fn assert_numbers(&self) {
        assert!(self.cases.len() >= 4000);
        let answers: Vec<_> = self.cases.iter().map(|case| case.answer().0).collect();
        let by =
            |number| answers.iter().filter(|answer| refused_by(answer) == Some(number)).count();
        for number in ORDER {
            assert!(by(number) >= 20, "refusal {number}: {}", by(number));
        }
        assert!(answers.iter().filter(|answer| answer.is_ok()).count() >= 1500);
    }
}

fn refused_by(answer: &Result<usize, Refusal>) -> Option<u8> {
    answer.err().map(|refusal| refusal.number)
}

#[cfg(test)]
mod tests {
    use super::*;

    fn line(text: &str, signals: u8, room: u16) -> String {
        TextCase { text: text.into(), signals, room }.expected_line()
    }

    #[test]
    fn lines_have_their_form() {
        assert_eq!(line("s1", 2, 13), "11 0400000102010300020001a5a5");
        assert_eq!(line("s1", 2, 11), "11 0400000102010300020001");
        assert_eq!(line("s1", 2, 2), "refused 10 at 0 a5a5");
        assert_eq!(line("s1", 2, 0), "refused 10 at 0 ");
        assert_eq!(line("s1 U", 2, 1), "refused 15 at 4 a5");
    }

    #[test]
    fn streams_are_small() {
        let (mut stream, mut lines) = (Vec::new(), 0);
        for case in all() {
            case.append_to(&mut stream);
            lines += case.expected_line().len() + 1;
        }
        assert!(stream.len() < 700_000, "{}", stream.len());
        assert!(lines < 1_500_000, "{lines}");
    }
}
