// Generated from crates/odht_raw/src/memory_layout/allocation/writing.rt by make generate.
//! What writes the bytes of a table: inserts, which write the parts, and last the item count (a
//! single insert where it added an entry, a list in any case); a table that is emptied where it is;
//! and single writes for callers who search themselves: an entry with its tag, only a value, and the
//! item count. No insert calls these: it writes the parts (`write_slot`) and the count
//! (`write_count`).

use super::Allocation;
use crate::generated::header::header::ITEM_COUNT_AT;
use crate::generated::raw::bytes::{write_slice, ByteArray, ByteStoreMut};
use crate::generated::raw::config::Config;
use crate::generated::raw::error::Error;
use crate::generated::raw::items::{Encoded, Items};
use crate::generated::raw::layout::Fixed;
use crate::generated::raw::memory_layout::inserts::{insert_items_in, insert_typed};
use crate::generated::raw::memory_layout::{
    entry_at, init_parts, EntryMetadata, Header, HEADER_SIZE,
};
use crate::generated::raw::raw_table::write_slot;
use crate::generated::raw::swisstable_group_query::Group;
use std::marker::PhantomData;

impl<C: Config, M: ByteStoreMut> Allocation<C, M> {
    /// Writes the header's item count. No other byte changes.
    #[inline]
    pub fn set_item_count(&mut self, item_count: usize) {
        let store = &mut self.store;
        store.write_at(ITEM_COUNT_AT, &(item_count as u64).to_le_bytes());
    }

    /// Writes the pair into the entry of a slot, and the tag, whatever it is, into its control
    /// byte and, for a slot below 16, its mirror. No other byte changes, the item count neither:
    /// that the key's search ends at this slot, and that the tag is the key's, is the caller's
    /// part. The clause `pair` says that key and value have the lengths of the format.
    #[inline(always)]
    pub fn write_entry(
        &mut self,
        slot: usize,
        key: &C::EncodedKey,
        value: &C::EncodedValue,
        tag: EntryMetadata,
    ) {
        let store = &mut self.store;
        let bytes = store.bytes_mut();
        let slots = Header::of(bytes).slot_count();
        let (table, control) = bytes.split_at_mut(entry_at::<C>(slots));
        let (_, entries) = table.split_at_mut(HEADER_SIZE);
        let lengths: Fixed<C::EncodedKey, C::EncodedValue> = Fixed::new();
        let (key, value) = (key.as_slice(), value.as_slice());
        write_slot(control, entries, slots, lengths, key, value, tag, slot);
    }

    /// Writes only the value into the entry of a slot. No other byte changes. The clause `value`
    /// says that it has the length of the format.
    #[inline(always)]
    pub fn write_value(&mut self, slot: usize, value: &C::EncodedValue) {
        let store = &mut self.store;
        store.write_at(entry_at::<C>(slot) + C::EncodedKey::LEN, value.as_slice());
    }

    /// Makes each slot free: the bytes are then those of the empty table with the slot count and
    /// the load factor of the header. Each byte is written.
    pub fn clear(&mut self) {
        let header = self.header();
        let slot_count = header.slot_count();
        let factor = header.max_load_factor();
        let store = &mut self.store;
        let lengths: Fixed<C::EncodedKey, C::EncodedValue> = Fixed::new();
        init_parts(store.bytes_mut(), lengths, slot_count, 0, factor);
    }

    /// Gives the key this value, by a group search of the caller's choice, and returns its former
    /// one. `Full`, with nothing changed, where the search does not find the key and the header's
    /// item count is its maximum or more, or where it finds neither the key nor a free slot. A new
    /// entry raises the item count by one.
    ///
    /// The slot count is read before the search, the rest of the header after it, and the key is
    /// hashed once.
    #[inline(always)]
    pub fn insert_by<Q: Group>(
        &mut self,
        key: &C::Key,
        value: &C::Value,
    ) -> Result<Option<C::Value>, Error> {
        let store = &mut self.store;
        let bytes = store.bytes_mut();
        let slots = Header::of(bytes).slot_count();
        crate::shim::slots::check::<M>(
            bytes.len(),
            slots,
            crate::generated::header::layout::Layout::of::<C>(),
        );
        insert_typed::<C, Q>(bytes, slots, key, value)
    }

    /// Inserts the items from index `from` on in their order, up to the first for which
    /// `insert_by` returns `Full`, and returns the index after the last item that was inserted.
    /// Each new entry raises the item count by one.
    ///
    /// The header is read once for the list, and the item count is written once. Each item costs a
    /// search. In tables of 2^20 slots and more the group at the home slot may be read ahead, for
    /// eight keys in turn: these keys are encoded twice, and a new key whose slot was seen free
    /// then needs no further search.
    #[inline(always)]
    pub fn insert_items<I: Items<C::Key, C::Value>>(&mut self, items: &I, from: usize) -> usize {
        let store = &mut self.store;
        let bytes = store.bytes_mut();
        let slots = Header::of(bytes).slot_count();
        crate::shim::slots::check::<M>(
            bytes.len(),
            slots,
            crate::generated::header::layout::Layout::of::<C>(),
        );
        let lengths: Fixed<C::EncodedKey, C::EncodedValue> = Fixed::new();
        let items: Encoded<'_, C, I> = Encoded { items, config: PhantomData };
        insert_items_in::<Fixed<C::EncodedKey, C::EncodedValue>, C::H, Encoded<'_, C, I>>(
            bytes, slots, lengths, items, from,
        )
    }
}

// Writes the item count of a header.
#[inline(always)]
pub(crate) fn write_count(header: &mut [u8], item_count: usize) {
    write_slice(header, ITEM_COUNT_AT, &(item_count as u64).to_le_bytes());
}
