//! The original's test of probe sequences: whatever the group size, the slots come in the order of docs/FORMAT.md.

use crate::generated::raw::raw_table::{probe_order, ProbeSeq};
use crate::shim::Global;

// The probe order of a home among that many slots, by its formula.
fn order(home: usize, slots: usize) -> impl Iterator<Item = usize> {
    (0..slots).map(move |at| (home + 8 * (at / 16) * (at / 16 + 1) + at % 16) % slots)
}

/// The slots at which the groups of that many slots begin.
pub fn group_starts<const SIZE: usize>(hash: usize, slots: usize) -> Vec<usize> {
    let mut probe = ProbeSeq::<SIZE>::new(hash, slots - 1);
    let mut starts = vec![probe.index()];
    while !probe.is_last() {
        probe.advance(slots - 1);
        starts.push(probe.index());
    }
    starts
}

fn slots_come_in_order<const SIZE: usize>(home: usize, slots: usize) {
    let starts = group_starts::<SIZE>(home, slots);
    let found = starts.iter().flat_map(|start| (0..SIZE).map(move |at| (start + at) % slots));
    assert!(found.eq(order(home, slots)));
}

#[test]
fn each_group_size_has_one_order() {
    for slots in (4..=16).map(|power| 1 << power) {
        for home in [0, slots / 3] {
            slots_come_in_order::<4>(home, slots);
            slots_come_in_order::<8>(home, slots);
            slots_come_in_order::<16>(home, slots);
            assert!(probe_order(Global, home, slots).unwrap().into_iter().eq(order(home, slots)));
        }
    }
}
