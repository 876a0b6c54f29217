// Generated from crates/odht_raw/src/raw_table/walk.rt by make generate.
//! Walks over the occupied slots, which give keys and values as types or as bytes.

use super::{Entries, Entry, EntryMetadata, Parts};
use crate::generated::raw::bytes::ByteArray;
use crate::generated::raw::hash::HashFn;
use crate::generated::raw::layout::{Layout, Lengths};
use crate::generated::raw::swisstable_group_query::{occupied, IndexSet, REFERENCE_GROUP_SIZE};
use std::iter::FusedIterator;

/// A walk from a slot on over the slots whose own control byte does not count as free, in slot
/// order: the index of each slot, with its control byte and its entry. A walk that stops at an
/// item can go on later from that item's slot.
///
/// In a contract it is the list of the items that are left. A whole walk reads each control byte
/// once, sixteen at a time.
pub struct RawSlots<'a, K: ByteArray, V: ByteArray> {
    control: &'a [EntryMetadata],
    entries: Entries<'a, K, V>,
    base: usize,
    occupied: IndexSet,
    next_slot: usize,
}

impl<'a, K: ByteArray, V: ByteArray> RawSlots<'a, K, V> {
    /// The walk from slot `from` on; it gives no item where `from` is past the last slot.
    /// `control` is the control bytes with their mirror.
    #[inline]
    pub fn new(control: &'a [EntryMetadata], entries: Entries<'a, K, V>, from: usize) -> Self {
        let first = from.min(entries.len());
        RawSlots { control, entries, base: first, occupied: IndexSet::empty(), next_slot: first }
    }
}

impl<'a, K: ByteArray, V: ByteArray> Iterator for RawSlots<'a, K, V> {
    type Item = (usize, (EntryMetadata, Entry<K, V>));

    #[inline]
    fn next(&mut self) -> Option<(usize, (EntryMetadata, Entry<K, V>))> {
        loop {
            if let Some(index) = self.occupied.take() {
                let slot = self.base + index;
                return Some((
                    slot,
                    (index!(self.control[slot], "AreOccupied"), self.entries.get(slot)),
                ));
            }
            if self.next_slot >= self.entries.len() {
                return None;
            }
            self.base = self.next_slot;
            let size = (self.entries.len() - self.base).min(REFERENCE_GROUP_SIZE);
            let control = self.control;
            self.occupied = occupied(
                &index!(control[self.base..self.base + REFERENCE_GROUP_SIZE], "AreOccupied"),
                size,
            );
            self.next_slot += size;
        }
    }
}

impl<'a, K: ByteArray, V: ByteArray> FusedIterator for RawSlots<'a, K, V> {}

/// A walk over all slots whose own control byte does not count as free, in slot order: the control
/// byte and the entry of each.
///
/// In a contract it is the list of the items that are left. A whole walk reads each control byte
/// once, sixteen at a time.
pub struct RawIter<'a, K: ByteArray, V: ByteArray> {
    slots: RawSlots<'a, K, V>,
}

impl<'a, K: ByteArray, V: ByteArray> RawIter<'a, K, V> {
    /// The walk over all slots. `control` is the control bytes with their mirror.
    #[inline]
    pub fn new(control: &'a [EntryMetadata], entries: Entries<'a, K, V>) -> Self {
        RawIter { slots: RawSlots::new(control, entries, 0) }
    }
}

impl<'a, K: ByteArray, V: ByteArray> Iterator for RawIter<'a, K, V> {
    type Item = (EntryMetadata, Entry<K, V>);

    #[inline(always)]
    fn next(&mut self) -> Option<(EntryMetadata, Entry<K, V>)> {
        let (_, item) = self.slots.next()?;
        Some(item)
    }
}

impl<'a, K: ByteArray, V: ByteArray> FusedIterator for RawIter<'a, K, V> {}

/// A walk from a slot on over the slots whose own control byte does not count as free, in slot
/// order: the index of each slot, with its key and its value. A walk that stops at an item can go
/// on later from that item's slot.
///
/// In a contract it is the list of the items that are left, each a slot and its pair. A whole walk
/// reads each control byte once, sixteen at a time.
pub struct PartSlots<'a, L: Lengths, H: HashFn> {
    table: Parts<'a, L, H>,
    // The slots alone: a walk over entries of no bytes.
    slots: RawSlots<'a, [u8; 0], [u8; 0]>,
}

/// The walk from a slot on of a table whose lengths are numbers.
pub type DynSlots<'a, H> = PartSlots<'a, Layout, H>;

impl<'a, L: Lengths, H: HashFn> PartSlots<'a, L, H> {
    /// The walk from slot `from` on; it gives no item where `from` is past the last slot.
    pub fn new(table: Parts<'a, L, H>, from: usize) -> Self {
        let none: Entries<'a, [u8; 0], [u8; 0]> = Entries::new(&[], table.len());
        let slots = RawSlots::new(table.controls(), none, from);
        PartSlots { table, slots }
    }
}

impl<'a, L: Lengths, H: HashFn> Iterator for PartSlots<'a, L, H> {
    type Item = (usize, (&'a [u8], &'a [u8]));

    #[inline]
    fn next(&mut self) -> Option<(usize, (&'a [u8], &'a [u8]))> {
        let (slot, _) = self.slots.next()?;
        Some((slot, (self.table.key(slot), self.table.value(slot))))
    }
}

impl<'a, L: Lengths, H: HashFn> FusedIterator for PartSlots<'a, L, H> {}

/// A walk over all slots whose own control byte does not count as free, in slot order: the key and
/// the value of each.
///
/// In a contract it is the list of the pairs that are left. A whole walk reads each control byte
/// once, sixteen at a time.
pub struct PartPairs<'a, L: Lengths, H: HashFn> {
    slots: PartSlots<'a, L, H>,
}

/// The walk over all slots of a table whose lengths are numbers.
pub type DynIter<'a, H> = PartPairs<'a, Layout, H>;

impl<'a, L: Lengths, H: HashFn> PartPairs<'a, L, H> {
    /// The walk over all slots.
    pub fn new(table: Parts<'a, L, H>) -> Self {
        // For the prover: the entries have the lengths of the slots.
        let _ = table.len();
        PartPairs { slots: PartSlots::new(table, 0) }
    }
}

impl<'a, L: Lengths, H: HashFn> Iterator for PartPairs<'a, L, H> {
    type Item = (&'a [u8], &'a [u8]);

    #[inline]
    fn next(&mut self) -> Option<(&'a [u8], &'a [u8])> {
        let (_, pair) = self.slots.next()?;
        Some(pair)
    }
}

impl<'a, L: Lengths, H: HashFn> FusedIterator for PartPairs<'a, L, H> {}
