//! Groups of states that no list of events tells apart.

use super::walk::Walk;
use super::{EVENTS, STATES};
use crate::table::Verdict;

/// The group of each state. Groups are numbered by their first states, which
/// is the order in which a breadth-first walk over the groups meets them.
pub struct Groups {
    group_of: [u8; STATES],
    first_states: [u8; STATES],
    count: usize,
}

impl Groups {
    pub fn of(walk: &Walk) -> Self {
        let mut groups = Groups { group_of: [0; STATES], first_states: [0; STATES], count: 1 };
        let mut seen = Signatures::new();
        groups.split(walk, &mut seen, |state, _| walk.verdicts[state].to_byte().into());
        loop {
            let count = groups.count;
            groups.split(walk, &mut seen, |state, group_of| groups_after(walk, state, group_of));
            if groups.count == count {
                return groups;
            }
        }
    }

    pub fn count(&self) -> usize {
        self.count
    }

    /// Splits each group by what the signature says of its states.
    fn split(
        &mut self,
        walk: &Walk,
        seen: &mut Signatures,
        signature: impl Fn(usize, &[u8; STATES]) -> u128,
    ) {
        seen.clear();
        let mut split = [0; STATES];
        for (state, new_group) in split.iter_mut().enumerate().take(walk.count) {
            let old_group = self.group_of[state];
            let (group, is_new) = seen.group_of(old_group, signature(state, &self.group_of));
            *new_group = group;
            if is_new {
                self.first_states[usize::from(group)] = state as u8;
            }
        }
        self.group_of = split;
        self.count = seen.count;
    }

    /// The verdict of a group and the groups that follow it. An undecided
    /// group that every event leaves alone is moot.
    pub fn row(&self, walk: &Walk, group: u8) -> (Verdict, [u8; EVENTS]) {
        let state = usize::from(self.first_states[usize::from(group)]);
        let successors = groups_after(walk, state, &self.group_of).to_le_bytes();
        let stays = successors[..walk.events].iter().all(|&successor| successor == group);
        match walk.verdicts[state] {
            Verdict::Undecided if stays => (Verdict::Moot, successors),
            verdict => (verdict, successors),
        }
    }
}

/// The groups of the successors, a byte for each event that can happen.
fn groups_after(walk: &Walk, state: usize, group_of: &[u8; STATES]) -> u128 {
    let mut groups = [0; EVENTS];
    for (group, &successor) in groups.iter_mut().zip(&walk.successors[state]).take(walk.events) {
        *group = group_of[usize::from(successor)];
    }
    u128::from_le_bytes(groups)
}

/// The signatures seen in one round, in an open hash table.
struct Signatures {
    count: usize,
    seen: [(u8, u128); STATES],
    slots: [u16; SLOTS],
}

const SLOTS: usize = 512;
const EMPTY: u16 = u16::MAX;

impl Signatures {
    fn new() -> Self {
        Signatures { count: 0, seen: [(0, 0); STATES], slots: [EMPTY; SLOTS] }
    }

    fn clear(&mut self) {
        self.count = 0;
        self.slots = [EMPTY; SLOTS];
    }

    /// The group of a signature and whether it is a new one.
    fn group_of(&mut self, old_group: u8, signature: u128) -> (u8, bool) {
        let mut slot = hash(old_group, signature);
        while self.slots[slot] != EMPTY {
            let group = self.slots[slot];
            if self.seen[usize::from(group)] == (old_group, signature) {
                return (group as u8, false);
            }
            slot = (slot + 1) % SLOTS;
        }
        self.seen[self.count] = (old_group, signature);
        self.slots[slot] = self.count as u16;
        self.count += 1;
        ((self.count - 1) as u8, true)
    }
}

fn hash(old_group: u8, signature: u128) -> usize {
    let folded = (signature as u64) ^ ((signature >> 64) as u64).rotate_left(29);
    let mixed = (folded ^ u64::from(old_group) << 7).wrapping_mul(0x9e37_79b9_7f4a_7c15);
    (mixed >> 55) as usize
}
