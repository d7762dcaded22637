//! How far a text can still be made to fit.
//!
//! A beginning is tried with a few endings, and one of them fits if any text does that begins so. For let
//! such a text fit. The beginning stops between two signs, or within one: then finish that sign as the text
//! does; it is one of the signs that begin with what is there. So the beginning has whole signs, the first
//! ones of a text that fits. Take the reading of that text and drop the signs behind the beginning, but for
//! closing brackets whose opening ones stand in it:
//! - of a pair of brackets, a prefix with its operand, or two operands with a sign between them, that was
//!   cut within an operand, what is left of the operand is an operand again, so the whole is one;
//! - where the cut falls just behind an opening bracket, a prefix or a binary sign, an operand is missing,
//!   and `s0` stands for it; that is at most once, at the cut;
//! - where it falls just behind an operand, with a binary sign dropped, the operand alone is left.
//!
//! So what follows the beginning is the end of a sign, then `s0` or nothing, then closing brackets, at most
//! as many as the beginning has opening ones. How tightly signs bind plays no part in this: it decides which
//! reading a text has, and not whether it has one.
//!
//! A beginning of a beginning that can fit can fit as well, so the longest is found by halving.

use super::chart::{trimmed_length, Chart};
use super::signs::{self, CLOSING, OPENING};

/// The length of the longest beginning that some further text makes fit.
pub fn longest_hopeful(text: &[u8]) -> usize {
    if can_fit(text) {
        return text.len();
    }
    let (mut hopeful, mut hopeless) = (0, text.len());
    while hopeful + 1 < hopeless {
        let middle = (hopeful + hopeless) / 2;
        match can_fit(&text[..middle]) {
            true => hopeful = middle,
            false => hopeless = middle,
        }
    }
    hopeful
}

/// True if some further text, of any length, makes the beginning fit.
pub fn can_fit(beginning: &[u8]) -> bool {
    ends_of_cut_sign(beginning).iter().any(|end| {
        let whole_signs = [beginning, end.as_bytes()].concat();
        closes(&whole_signs) || closes(&[&whole_signs[..], b"s0"].concat())
    })
}

/// What can follow to end the sign within which the beginning stops; nothing, if it stops after one.
fn ends_of_cut_sign(beginning: &[u8]) -> Vec<&'static str> {
    let mut ends = vec![""];
    for sign in signs::all() {
        let cuts = (1..sign.len()).map(|cut| sign.split_at(cut));
        ends.extend(
            cuts.filter(|(start, _)| beginning.ends_with(start.as_bytes())).map(|(_, end)| end),
        );
    }
    ends
}

/// True if the text fits with some number of closing brackets behind it, from none up to as many as it has
/// opening ones: one chart has them all.
fn closes(text: &[u8]) -> bool {
    let opening = text.iter().filter(|&&byte| byte == OPENING).count();
    let closed = [text, &vec![CLOSING; opening]].concat();
    let longest = Chart::of(&closed).longest();
    longest > 0 && longest >= trimmed_length(text)
}
