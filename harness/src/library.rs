//! Functions of the library with all that they answer. The safe wrapper shows less: it takes the
//! parts out of an answer, keeps the cell of a run's count to itself, and has only right openings.

use crate::tefuji::library as declared;
use crate::tefuji::Watch;

pub fn open(table: &[u8], number: u16) -> u64 {
    // The slice is lent for the call.
    unsafe { declared::tefuji_open(table.as_ptr(), table.len(), number) }
}

pub fn start(opened: u64) -> u32 {
    // The library takes any number.
    unsafe { declared::tefuji_start(opened) }
}

pub fn run(table: &[u8], opened: u64, state: u32, events: &[u8], count: &mut u64) -> u64 {
    let (bytes, length) = (table.as_ptr(), table.len());
    let (list, events) = (events.as_ptr(), events.len());
    // All three are lent for the call, a `&mut` overlaps nothing, and the library takes any opening.
    unsafe { declared::tefuji_run(bytes, length, opened, state, list, events, count) }
}

pub fn step(table: &[u8], opened: u64, state: u32, event: u8) -> u64 {
    // The slice is lent for the call, and the library takes any opening.
    unsafe { declared::tefuji_step(table.as_ptr(), table.len(), opened, state, event) }
}

pub fn judge(table: &[u8], opened: u64, first: &[u8], second: &[u8]) -> u64 {
    let (bytes, length) = (table.as_ptr(), table.len());
    let (one, other) = (first.as_ptr(), second.as_ptr());
    // All three are lent for the call, and the library takes any opening.
    unsafe { declared::tefuji_judge(bytes, length, opened, one, first.len(), other, second.len()) }
}

pub fn fresh(desk: &mut [Watch], table: &[u8], opened: u64) -> u64 {
    let (row, watches, length) = (desk.as_mut_ptr(), desk.len(), table.len());
    // Both are lent for the call, a `&mut` overlaps nothing, and the library takes any opening.
    unsafe { declared::tefuji_fresh(row, watches, table.as_ptr(), length, opened) }
}

pub fn post(desk: &mut [Watch], table: &[u8], opened: u64, number: usize, event: u8) -> u64 {
    let (row, watches, length) = (desk.as_mut_ptr(), desk.len(), table.len());
    // Both are lent for the call, a `&mut` overlaps nothing, and the library takes any opening.
    unsafe { declared::tefuji_post(row, watches, table.as_ptr(), length, opened, number, event) }
}

pub fn turn(desk: &mut [Watch], table: &[u8], opened: u64, last: usize) -> u64 {
    let (row, watches, length) = (desk.as_mut_ptr(), desk.len(), table.len());
    // Both are lent for the call, a `&mut` overlaps nothing, and the library takes any opening.
    unsafe { declared::tefuji_turn(row, watches, table.as_ptr(), length, opened, last) }
}
