// Generated from crates/odht_raw/src/raw_table/insert_order.rt by make generate.
//! An order of inserts that makes a table, found within the buffer that it is written to.

use super::orders::WAITING;
use super::Parts;
use crate::generated::raw::hash::HashFn;
use crate::generated::raw::layout::Lengths;
use crate::generated::raw::swisstable_group_query::REFERENCE_GROUP_SIZE;

// How many frontiers are kept from one search to the next. Few homes have long searches at a time,
// and one that is forgotten is only found again.
const FRONTIERS: usize = 64;

// An odd number, times which homes that share their low bits differ in the highest.
const SPREAD: usize = 0x9E37_79B9_7F4A_7C15;

// How far the slots in the probe order of a home are placed: those before a group. It keeps the
// first slot of the group and the position of that slot.
#[derive(Clone, Copy)]
struct Frontier {
    home: usize,
    base: usize,
    position: usize,
}

/// Places slots in their order, as long as each is near its home. None that waits is before it in
/// the probe order of its key then, so that it is ready. Returns how many were placed.
pub(super) fn place_near<L: Lengths, H: HashFn>(
    table: &Parts<'_, L, H>,
    slots: &mut [usize],
) -> usize {
    for at in 0..slots.len() {
        let slot = slots[at] - WAITING;
        if !is_near(slot, table.home_of(slot)) {
            return at;
        }
        slots[at] = slot;
    }
    slots.len()
}

/// `Parts::insert_order` of the slots that still wait, where the first `placed` are placed.
///
/// A slot waits until all slots before it in the probe order of its key are placed. A pass goes
/// through the waiting slots in slot order, and places each that waits for no slot by then. At its
/// end the slots that still wait are sorted. Passes are made until no slot waits, or a pass places
/// none: at most `n + 1` passes, if `n` slots wait for one with a higher index.
///
/// In a pass a slot in the first group of its probe order and not below its home takes one step.
/// Any other takes one or two binary searches among the waiting slots for each group up to its own.
/// Groups that were passed before from the same home are skipped: `FRONTIERS` homes are kept.
// It is a call of its own, since it sets the frontiers up, and most tables with few pairs need
// none.
#[inline(never)]
pub(super) fn place_others<L: Lengths, H: HashFn>(
    table: &Parts<'_, L, H>,
    out: &mut [usize],
    placed: usize,
) -> bool {
    let mut frontiers = [Frontier::at(0); FRONTIERS];
    let mut placed = placed;
    while placed < out.len() {
        let ready = place_ready(table, &mut out[placed..], &mut frontiers);
        if ready == 0 {
            return false;
        }
        placed += ready;
    }
    true
}

// Goes once through the slots that wait, and places each that is ready by then. At the end the
// placed slots come first, in slot order, and after them the others. Returns how many were placed.
fn place_ready<L: Lengths, H: HashFn>(
    table: &Parts<'_, L, H>,
    slots: &mut [usize],
    frontiers: &mut [Frontier; FRONTIERS],
) -> usize {
    let mut placed = 0;
    // One more than the last slot that was left to wait, or 0.
    let mut left = 0;
    for at in 0..slots.len() {
        let slot = slots[at] - WAITING;
        if is_ready(table, slot, left, slots, frontiers) {
            slots[at] = slot;
            placed += 1;
        } else {
            left = slot + 1;
        }
    }
    sort_placed_first(slots, placed);
    placed
}

// Whether no slot before this one in the probe order of its key waits. In most cases the slots
// before it begin at its home and end next to it, so that all of them were looked at before in the
// pass.
#[inline]
fn is_ready<L: Lengths, H: HashFn>(
    table: &Parts<'_, L, H>,
    slot: usize,
    left: usize,
    slots: &[usize],
    frontiers: &mut [Frontier; FRONTIERS],
) -> bool {
    let home = table.home_of(slot);
    if is_near(slot, home) {
        left <= home
    } else {
        is_unblocked_from(home, slot, table.len() - 1, left, slots, frontiers)
    }
}

// Whether a slot is one of the first group of a home, and not below the home.
#[inline(always)]
fn is_near(slot: usize, home: usize) -> bool {
    home <= slot && slot - home < REFERENCE_GROUP_SIZE
}

impl Frontier {
    // That of a home before any slot is passed.
    #[inline]
    fn at(home: usize) -> Frontier {
        Frontier { home, base: home, position: 0 }
    }
}

// Whether no slot before this one, which waits, in the probe order of the home waits. What an
// earlier search from this home has passed is placed, so it goes on from there where that is kept.
fn is_unblocked_from(
    home: usize,
    slot: usize,
    mask: usize,
    left: usize,
    slots: &[usize],
    frontiers: &mut [Frontier; FRONTIERS],
) -> bool {
    let index = home.wrapping_mul(SPREAD) >> 58;
    let mut frontier = frontiers[index];
    if frontier.home != home {
        frontier = Frontier::at(home);
    }
    let result = is_unblocked(&mut frontier, slot, mask, left, slots);
    frontiers[index] = frontier;
    result
}

// Whether no slot before this one, which waits, in the probe order of the home waits. The frontier
// goes on to the last group that this looks at.
fn is_unblocked(
    frontier: &mut Frontier,
    slot: usize,
    mask: usize,
    left: usize,
    slots: &[usize],
) -> bool {
    loop {
        let before = (slot + (mask + 1) - frontier.base) & mask;
        let count = before.min(REFERENCE_GROUP_SIZE);
        if is_any_waiting(frontier.base, count, mask, slot, left, slots) {
            return false;
        }
        if before < REFERENCE_GROUP_SIZE {
            return true;
        }
        frontier.position += REFERENCE_GROUP_SIZE;
        frontier.base = (frontier.base + frontier.position) & mask;
    }
}

// Whether one of the `count` slots from `base` on waits, around the end. From `left` on none below
// `slot` waits.
fn is_any_waiting(
    base: usize,
    count: usize,
    mask: usize,
    slot: usize,
    left: usize,
    slots: &[usize],
) -> bool {
    let end = base + count;
    if left <= base && end <= slot {
        return false;
    }
    let slot_count = mask + 1;
    if end <= slot_count {
        return is_range_waiting(base, end, slots);
    }
    if is_range_waiting(base, slot_count, slots) {
        return true;
    }
    is_range_waiting(0, end - slot_count, slots)
}

// Whether a slot from `start` to before `end` waits. The slots of the list are in slot order.
fn is_range_waiting(start: usize, end: usize, slots: &[usize]) -> bool {
    let first = slots.partition_point(|listed| *listed % WAITING < start);
    for at in first..slots.len() {
        let listed = slots[at];
        if listed % WAITING >= end {
            return false;
        }
        if listed >= WAITING {
            return true;
        }
    }
    false
}

// Sorts the list, whose slots are in slot order, and of which that many are placed: these come
// first, and behind them those that wait. The placed ones keep their order as they are moved, so
// only the others are sorted, of which there are few in most tables, and in many none.
fn sort_placed_first(slots: &mut [usize], placed: usize) {
    if placed == slots.len() {
        return;
    }
    let mut front = 0;
    for at in 0..slots.len() {
        let moved = slots[at];
        if moved < WAITING {
            slots[at] = slots[front];
            slots[front] = moved;
            front += 1;
        }
    }
    slots[front..].sort_unstable();
}
