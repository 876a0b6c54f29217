//! The search for an order of inserts as it was written first: each earlier slot of a probe order is looked for by a
//! binary search, and the whole list is sorted after each pass. And tables that need not be made by inserts.

use super::random::Random;
use super::reading::Reading;

// What is added to a slot that waits.
const WAITING: usize = 1 << 63;

/// Whether there is an order of that many slots as there are pairs. It is written to `out`, or what
/// is left of the search.
pub fn first_order(table: &Reading<'_>, out: &mut [usize]) -> bool {
    for (listed, slot) in out.iter_mut().zip(table.occupied()) {
        *listed = WAITING + slot;
    }
    let mut placed = 0;
    while placed < out.len() {
        let ready = place_ready(table, &mut out[placed..]);
        if ready == 0 {
            return false;
        }
        placed += ready;
    }
    true
}

fn place_ready(table: &Reading<'_>, slots: &mut [usize]) -> usize {
    let mut placed = 0;
    for at in 0..slots.len() {
        let slot = slots[at] - WAITING;
        let mut order = table.format.order_of(table.key(slot), table.slots());
        let stop = order.find(|it| *it == slot || is_waiting(*it, slots));
        if stop == Some(slot) {
            slots[at] = slot;
            placed += 1;
        }
    }
    slots.sort_unstable();
    placed
}

fn is_waiting(slot: usize, slots: &[usize]) -> bool {
    let index = slots.partition_point(|listed| *listed % WAITING < slot);
    slots.get(index) == Some(&(WAITING + slot))
}

/// The bytes with entries and control bytes of some slots exchanged. They need not be valid.
pub fn exchanged(random: &mut Random, table: &Reading<'_>) -> Vec<u8> {
    let mut bytes = table.bytes.to_vec();
    let slots = table.slots();
    for _ in 0..[1, 3, slots][random.below(3)] {
        let slot = random.below(slots);
        let near = if random.comes(50) { 16 } else { slots };
        let other = (slot + random.below(near)) % slots;
        for at in 0..table.format.key + table.format.value {
            bytes.swap(table.entry_at(slot) + at, table.entry_at(other) + at);
        }
        bytes.swap(table.control_at(slot), table.control_at(other));
    }
    let control = table.control_at(0);
    bytes.copy_within(control..control + 16, control + slots);
    bytes
}
