// Generated from crates/odht/src/new_tables.rt by make generate.
//! New tables, and those that dynamic tables grow into. The lengths of keys and values are types
//! or numbers.

use crate::generated::tables::bytes::{ByteStore, ByteStoreMut};
use crate::generated::tables::dynamic::{check_key_len, DynError, DynTable};
use crate::generated::tables::error::Error;
use crate::generated::tables::growth::{grow_parts, grown_len_of};
use crate::generated::tables::hash::HashFn;
use crate::generated::tables::layout::{Layout, Lengths};
use crate::generated::tables::load::Factor;
use crate::generated::tables::memory_layout::{init_parts, write_empty};
use crate::shim::Global;
use alloc::vec::Vec;

/// Makes an empty table of these lengths for `max_item_count` items in a store, over any bytes that
/// are there. The errors are `Capacity` and `InitLength`, and leave the store as it was.
pub(crate) fn init_bytes<L: Lengths, H: HashFn, D: ByteStoreMut>(
    lengths: L,
    store: &mut D,
    max_item_count: usize,
    max_load_factor_percent: u8,
) -> Result<(), Error> {
    let factor = Factor::from_percent(max_load_factor_percent);
    let layout = Layout::of_lengths(lengths);
    let Some((slot_count, expected)) = layout.table_for(max_item_count, factor) else {
        return Err(Error::Capacity);
    };
    let found = store.bytes().len();
    if found != expected {
        return Err(Error::InitLength { found, expected });
    }
    init_parts(store.bytes_mut(), lengths, slot_count, 0, factor);
    Ok(())
}

/// The bytes of such a table in new memory. The errors are `Capacity`, and `Memory` where the
/// allocator gives none.
pub(crate) fn new_bytes<L: Lengths, H: HashFn>(
    alloc: Global,
    lengths: L,
    max_item_count: usize,
    max_load_factor_percent: u8,
) -> Result<Vec<u8>, Error> {
    let factor = Factor::from_percent(max_load_factor_percent);
    let layout = Layout::of_lengths(lengths);
    let Some((slot_count, len)) = layout.table_for(max_item_count, factor) else {
        return Err(Error::Capacity);
    };
    let Ok(mut bytes) = crate::shim::zeroed_bytes(alloc, len) else {
        return Err(Error::Memory);
    };
    write_empty(bytes.as_mut_slice(), lengths, slot_count, 0, factor);
    Ok(bytes)
}

impl<H: HashFn, D: ByteStore> DynTable<H, D> {
    /// Returns the length in bytes of the table that this one grows into, like
    /// [`HashTable::grown_len`](crate::generated::tables::hash_table::HashTable::grown_len).
    pub fn grown_len(&self) -> Option<usize> {
        grown_len_of::<Layout, H>(self.raw_bytes(), self.layout())
    }

    /// Writes the table that this one grows into to `out`, over any bytes that are there, like
    /// [`HashTable::grow_into`](crate::generated::tables::hash_table::HashTable::grow_into). `out` must have
    /// [`DynTable::grown_len`] bytes.
    pub fn grow_into(&self, out: &mut [u8]) {
        grow_parts::<Layout, H>(self.raw_bytes(), self.layout(), out);
    }

    /// Returns the length in bytes of a new table with these lengths for `max_item_count` items, like
    /// [`bytes_needed`](crate::generated::tables::hash_table::bytes_needed) of a typed table.
    pub fn bytes_needed(
        layout: Layout,
        max_item_count: usize,
        max_load_factor_percent: u8,
    ) -> Option<usize> {
        let factor = Factor::from_percent(max_load_factor_percent);
        let (_, len) = layout.table_for(max_item_count, factor)?;
        Some(len)
    }
}

impl<H: HashFn, D: ByteStoreMut> DynTable<H, D> {
    /// Makes an empty table with these key and value lengths in a store, like
    /// [`HashTable::init_store`](crate::generated::tables::hash_table::HashTable::init_store). The error is `KeyTooShort` if the hash function needs longer keys. Otherwise
    /// it is `Rejected` with the error of that call. If there is none,
    /// [`DynTable::open_unchecked`] accepts the store.
    pub fn init_store(
        layout: Layout,
        store: &mut D,
        max_item_count: usize,
        max_load_factor_percent: u8,
    ) -> Result<(), DynError> {
        check_key_len::<H>(layout)?;
        match init_bytes::<Layout, H, D>(layout, store, max_item_count, max_load_factor_percent) {
            Ok(()) => Ok(()),
            Err(rejected) => Err(DynError::Rejected(rejected)),
        }
    }
}
