//! From a rule file to a table, into outputs of several lengths.

use oracle::builder;
use oracle::table::Monitor;
use oracle::vectors::rule_faults::refused_by_mask;

use super::{lent, painted, refused_by, same, same_bytes, Compared};
use crate::answer;
use crate::case::Room;
use crate::tally::Tally;
use crate::tefuji::{self, TABLE_MAX};

/// Stands for the table's length where the rule has none.
const NO_TABLE: usize = 64;

pub fn compare(rule: &[u8], rooms: &[Room], paint: u8, tally: &mut Tally) -> Compared {
    let mut table = [0; TABLE_MAX];
    let built = builder::build(rule, &mut table);
    let table_length = built.unwrap_or(NO_TABLE);
    let lengths = rooms.iter().map(|room| room.length(table_length, TABLE_MAX));
    for length in lengths.clone() {
        compare_into(rule, length, paint, tally)?;
    }
    match built {
        Ok(least) if lengths.max() >= Some(least) => {
            let monitor = Monitor::open(&table[..least]).expect("the builder writes a table");
            tally.add_table(&monitor);
        }
        Ok(_) => {}
        Err(_) => tally.add_brought_by_masks(refused_by_mask(rule)),
    }
    Ok(())
}

/// Builds into an output of this length, in which every byte is `paint`.
fn compare_into(rule: &[u8], length: usize, paint: u8, tally: &mut Tally) -> Compared {
    let mut expected_output = vec![paint; length];
    let expected = builder::build(rule, &mut expected_output);
    let lent_rule = lent(rule);
    let mut output = painted(length, paint);
    let found = tefuji::build(&lent_rule, &mut output);
    same("answer of build", found, expected.map_err(answer::refusal))?;
    same_bytes("output of build", &output, &expected_output)?;
    let table_length = expected.unwrap_or(0);
    let kept = output[table_length..].iter().all(|&byte| byte == paint);
    same("bytes past the table kept", kept, true)?;
    same_bytes("the rule that was read", &lent_rule, rule)?;
    let code = answer::code(expected.map(|length| length as u64));
    tally.add_answer("build", refused_by(code));
    Ok(())
}
