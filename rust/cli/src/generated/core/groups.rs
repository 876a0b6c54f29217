// Generated from crates/odht_tool_core/src/groups.rt by make generate.
//! How many groups of control bytes a search reads, up to a bound.

use crate::generated::base::swisstable_group_query::lanes::GroupQuery;
use crate::generated::base::swisstable_group_query::Group;
use crate::generated::raw::raw_table::{GroupProbe, ProbeSeq};
use crate::host::prelude::*;

/// The number of the group of a key's probe order that contains a slot, from 1 on: as many groups
/// as a search for the key in that slot reads. Where that is above the bound, one more than the
/// bound.
///
/// It goes over the groups of the probe order up to that one, or to the bound.
pub fn groups_to(hash: u32, slot: usize, slot_count: usize, bound: Option<usize>) -> usize {
    let mask = slot_count - 1;
    let groups = slot_count / 16;
    let most = most_groups(groups, bound);
    let mut probe = ProbeSeq::<16>::new(hash as usize, mask);
    for group in 0..most {
        if steps_to(probe.index(), slot, slot_count) < 16 {
            return group + 1;
        }
        if group + 1 < groups {
            probe.advance(mask);
        }
    }
    groups.min(most + 1)
}

/// How many groups a search from this home reads at most, for any key: up to the first with a
/// control byte that counts as free, or all. Where that is above the bound, one more than the
/// bound. The control bytes end with their mirror.
///
/// It reads these groups, up to the bound.
pub fn groups_to_free(
    control: &[u8],
    home: usize,
    slot_count: usize,
    bound: Option<usize>,
) -> usize {
    let groups = slot_count / 16;
    let most = most_groups(groups, bound);
    let mut probe = GroupProbe::new(control, slot_count, home);
    for group in 0..most {
        if GroupQuery::of(probe.read(), 0).any_empty() {
            return group + 1;
        }
        if group + 1 < groups {
            probe.advance();
        }
    }
    groups.min(most + 1)
}

/// Whether one of the first `most` groups that a search from this home reads has a control byte that
/// counts as free, so that no search from it reads more. The control bytes end with their mirror.
///
/// It reads these groups up to the first with such a byte.
pub fn ends_within(control: &[u8], home: usize, slots: usize, most: usize) -> bool {
    let groups = slots / 16;
    let mut probe = GroupProbe::new(control, slots, home);
    for group in 0..most.min(groups) {
        if GroupQuery::of(probe.read(), 0).any_empty() {
            return true;
        }
        if group + 1 < groups {
            probe.advance();
        }
    }
    false
}

// How many of that many groups are looked at, by the bound.
fn most_groups(groups: usize, bound: Option<usize>) -> usize {
    match bound {
        None => groups,
        Some(bound) => bound.min(groups),
    }
}

// How many slots a slot is behind another one, around the end.
fn steps_to(start: usize, slot: usize, slot_count: usize) -> usize {
    if start <= slot {
        slot - start
    } else {
        slot + slot_count - start
    }
}
