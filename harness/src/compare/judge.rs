//! Two recordings judged over a table, both ways round.

use oracle::counted::{number_of, Counted};
use oracle::recordings::{self, completion_count};
use oracle::table::Monitor;

use super::{lent, refused_by, same, same_bytes, same_code, wrapped, Compared};
use crate::answer;
use crate::case::Recordings;
use crate::library;
use crate::tally::judged::Judged;
use crate::tally::Tally;

pub fn compare(table: &[u8], pairs: &[Recordings], tally: &mut Tally) -> Compared {
    let lent_table = lent(table);
    let monitor = Monitor::open(table).ok();
    for pair in pairs {
        compare_pair(&lent_table, monitor.as_ref(), pair, tally)?;
    }
    same_bytes("the table that was read", &lent_table, table)
}

/// One pair; by the wrapper, too, where the opening is that of a good table.
fn compare_pair(
    table: &[u8],
    monitor: Option<&Monitor>,
    pair: &Recordings,
    tally: &mut Tally,
) -> Compared {
    let &Recordings { opened, ref first, ref second } = pair;
    let (lent_first, lent_second) = (lent(first), lent(second));
    let expected = recordings::judge((table, opened), first, second);
    let code = library::judge(table, opened, &lent_first, &lent_second);
    same_code("answer of judge", code, answer::judged(expected))?;
    let turned = library::judge(table, opened, &lent_second, &lent_first);
    same_code("answer of judge with the second first", turned, answer::judged(expected))?;
    if let Some(wrapped) = wrapped(table, monitor, opened) {
        let judged = wrapped.judge_recordings(&lent_first, &lent_second);
        same("judge", judged, expected.map(answer::verdict).map_err(answer::refusal))?;
        same_as_run(table, code, pair)?;
    }
    same_bytes("the first recording that was read", &lent_first, first)?;
    same_bytes("the second recording that was read", &lent_second, second)?;
    tally.add_answer("judge", refused_by(code));
    tally.recordings.add(&Judged { table, monitor, pair, answer: expected });
    Ok(())
}

/// Where there is one completion, the library's own run over it shows the same verdict.
fn same_as_run(table: &[u8], code: u64, pair: &Recordings) -> Compared {
    let counted = Counted::new(table, pair.opened).expect("the opening is the table's");
    let choices = recordings::joined(&counted, &pair.first, &pair.second);
    let Some(choices) = choices.ok().filter(|choices| completion_count(choices) == 1) else {
        return Ok(());
    };
    let events = choices.concat();
    let mut count = 0;
    let start = u32::from(number_of(pair.opened)) << 16;
    let run = library::run(table, pair.opened, start, &lent(&events), &mut count);
    same_code("judge beside the run over the one completion", code, run >> 32 << 32)
}
