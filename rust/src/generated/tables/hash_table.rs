// Generated from crates/odht/src/hash_table.rt by make generate.
//! A table in the bytes of any store.

use crate::generated::tables::bytes::{ByteStore, ByteStoreMut};
use crate::generated::tables::config::Config;
use crate::generated::tables::error::Error;
use crate::generated::tables::items::Items;
use crate::generated::tables::iter::{Iter, Slots};
use crate::generated::tables::layout::Fixed;
use crate::generated::tables::load::Factor;
use crate::generated::tables::lookups::{self, InSlice};
use crate::generated::tables::memory_layout::{self, Allocation};
use crate::generated::tables::new_tables::init_bytes;
use crate::generated::tables::raw_table::{RawIter, RawSlots, RawTable};
use crate::generated::tables::swisstable_group_query::GroupQuery;

/// Returns the length in bytes of a new table for `max_item_count` items, at a load factor in
/// percent of the slots. Returns `None` exactly if no slot count is large enough, or the length
/// exceeds `usize::MAX`. docs/FORMAT.md, "Load factors", specifies the rule.
pub fn bytes_needed<C: Config>(
    max_item_count: usize,
    max_load_factor_percent: u8,
) -> Option<usize> {
    let factor = Factor::from_percent(max_load_factor_percent);
    let (_, len) = memory_layout::layout_for::<C>(max_item_count, factor)?;
    Some(len)
}

/// A view of a table in the bytes of a store. It cannot grow.
///
/// In contracts the value of a view is its store, and `D.bytes` of the store are the table's bytes.
/// The clauses and fields named `same_store` state that the view keeps the store that was passed
/// in. So if the store borrows its bytes, the borrowed bytes contain the table.
pub struct HashTable<C: Config, D: ByteStore> {
    pub(crate) allocation: Allocation<C, D>,
}

impl<C: Config, D: ByteStore> HashTable<C, D> {
    /// Opens bytes as a table, or returns the first error: too few bytes, then an error of the
    /// header, of the length, of the first ten slots. On an error the store is dropped.
    /// docs/FORMAT.md, "What is rejected, and in which order", specifies the order.
    ///
    /// Nothing else is checked. A view of accepted bytes that are not valid is safe to use, but its
    /// calls guarantee only what their clauses state for any bytes.
    #[inline(always)]
    pub fn from_raw_bytes(data: D) -> Result<Self, Error> {
        let allocation = Allocation::from_raw_bytes(data)?;
        Ok(HashTable { allocation })
    }

    /// Opens bytes as a table, and checks only their header and length. Returns the first error:
    /// too few bytes, then an error of the header, of the length. On an error the store is dropped.
    /// docs/FORMAT.md, "What is rejected, and in which order", specifies the order.
    ///
    /// No slot is checked. A view of bytes that are not valid is safe to use, but its calls
    /// guarantee only what their clauses state for any bytes.
    #[inline(always)]
    pub fn from_raw_bytes_by_header(data: D) -> Result<Self, Error> {
        let allocation = Allocation::from_raw_bytes_by_header(data)?;
        Ok(HashTable { allocation })
    }

    /// Opens bytes as a table without a check. The caller ensures that their header and length fit.
    #[inline]
    pub fn from_raw_bytes_unchecked(data: D) -> Self {
        HashTable { allocation: Allocation::from_raw_bytes_unchecked(data) }
    }

    /// Returns the value of a key, or `None`. On valid bytes it is the table's value for the key.
    /// On any bytes it is a value that some entry stores with exactly this key.
    /// [`HashTable::get_counted`] counts the groups that such a search reads.
    #[inline(always)]
    pub fn get(&self, key: &C::Key) -> Option<C::Value> {
        let (value, _) = self.get_counted(key);
        value
    }

    /// Looks up many keys, and writes the value of `keys[i]` to `values[i]`. The loads of eight
    /// keys overlap, so in a large table many lookups are faster than a loop of `get`.
    ///
    /// Each key is encoded twice, and hashed once. No group is read twice.
    #[inline]
    pub fn get_all(&self, keys: &[C::Key], values: &mut [Option<C::Value>]) {
        let mut answers = InSlice { answers: values };
        lookups::get_all::<C, InSlice<'_, Option<C::Value>>>(&self.as_raw(), keys, &mut answers);
    }

    /// Like `get`, and also returns how many groups of control bytes it read. On valid bytes these
    /// are the groups up to the first slot of the key's probe order that is free or contains the
    /// key. On any bytes it is at most one group for sixteen slots. docs/FORMAT.md, "Search",
    /// defines the count.
    #[inline(always)]
    pub fn get_counted(&self, key: &C::Key) -> (Option<C::Value>, usize) {
        let table = self.as_raw();
        let key = C::encode_key(key);
        match table.find_counted_by::<GroupQuery>(&key) {
            (Some(value), groups) => (Some(C::decode_value(&value)), groups),
            (None, groups) => (None, groups),
        }
    }

    /// Returns whether the key has a value. On any bytes it returns true only if the entry of some
    /// slot contains exactly this key.
    #[inline]
    pub fn contains_key(&self, key: &C::Key) -> bool {
        let table = self.as_raw();
        let key = C::encode_key(key);
        let (value, _) = table.find_counted_by::<GroupQuery>(&key);
        value.is_some()
    }

    /// Iterates over the keys and values of the slots whose own control byte is below 128, in slot
    /// order. On valid bytes these are the pairs of the table, each once.
    #[inline]
    pub fn iter(&self) -> Iter<'_, C> {
        let (control, entries) = self.allocation.data_slices();
        Iter { raw: RawIter::new(control, entries) }
    }

    /// Iterates over the slots from `from` on whose own control byte is below 128, in slot order,
    /// each with its key and value. On valid bytes these are the pairs in these slots, each once.
    /// If `from` is past the last slot, the iterator is empty.
    #[inline]
    pub fn iter_from(&self, from: usize) -> Slots<'_, C> {
        let (control, entries) = self.allocation.data_slices();
        Slots { raw: RawSlots::new(control, entries, from) }
    }

    /// Returns the item count of the header. On valid bytes it is the number of items.
    #[inline]
    pub fn len(&self) -> usize {
        self.allocation.header().item_count()
    }

    /// Returns whether the bytes are valid: those of a table that the format allows, to the last
    /// byte (docs/FORMAT.md, "Valid bytes"). On valid bytes each lookup returns what a map would.
    ///
    /// It checks all of the bytes, and allocates nothing. It costs what
    /// [`memory_layout::check_all`] costs, which returns the error. For untrusted bytes, call
    /// [`verify_within`](HashTable::verify_within), whose time is bounded.
    pub fn verify(&self) -> bool {
        self.allocation.check_rest().is_ok()
    }

    /// Returns whether the bytes are valid and all searches are short. Each home (the slot where a
    /// search begins) must have a control byte that counts as free among the first `groups` groups
    /// of its probe order. Then no search reads more groups, whether the key is present or absent.
    /// Tables whose hashes vary keep within
    /// [`DEFAULT_GROUPS`](crate::generated::tables::memory_layout::DEFAULT_GROUPS).
    ///
    /// Use it for untrusted bytes: for any bytes it costs no more than
    /// [`memory_layout::check_all_within`], which returns the error.
    pub fn verify_within(&self, groups: usize) -> bool {
        self.allocation.check_rest_within(groups).is_ok()
    }

    /// Returns whether each home (the slot where a search begins) has a control byte that counts as
    /// free among the first `groups` groups of its probe order. Then no search in valid bytes reads
    /// more groups, whether the key is present or absent. It reads only control bytes: for `s`
    /// slots at most `s * groups` groups. Inserts may lengthen searches: call it again after them.
    pub fn searches_within(&self, groups: usize) -> bool {
        self.as_raw().searches_within(groups)
    }

    /// Returns all bytes. Their header and length fit, so [`HashTable::from_raw_bytes_unchecked`]
    /// accepts them.
    #[inline]
    pub fn raw_bytes(&self) -> &[u8] {
        self.allocation.raw_bytes()
    }

    /// Returns the store, with the bytes as they are now. Their header and length fit, so
    /// [`HashTable::from_raw_bytes_unchecked`] accepts it again.
    #[inline]
    pub fn into_data(self) -> D {
        let HashTable { allocation } = self;
        allocation.into_data()
    }

    /// Returns the raw table of these bytes. To look up many keys, call this once.
    #[inline]
    pub fn as_raw(&self) -> RawTable<'_, C::EncodedKey, C::EncodedValue, C::H> {
        self.allocation.as_raw()
    }
}

impl<C: Config, D: ByteStoreMut> HashTable<C, D> {
    /// Creates an empty table for `max_item_count` items in `data`, over any bytes that are there.
    /// The load factor is in percent of the slots.
    ///
    /// The error is `Capacity` if no slot count is large enough, or the length exceeds
    /// `usize::MAX`. Otherwise it is `InitLength` if the length of `data` is not [`bytes_needed`].
    /// On an error `data` is dropped. docs/FORMAT.md, "Load factors", specifies the rule.
    pub fn init_in_place(
        data: D,
        max_item_count: usize,
        max_load_factor_percent: u8,
    ) -> Result<Self, Error> {
        let mut store = data;
        HashTable::<C, D>::init_store(&mut store, max_item_count, max_load_factor_percent)?;
        Ok(HashTable::from_raw_bytes_unchecked(store))
    }

    /// Creates an empty table for `max_item_count` items in a store that the caller keeps, over any
    /// bytes that are there. The load factor is in percent of the slots.
    ///
    /// The errors are those of [`HashTable::init_in_place`]. An error leaves the store as it was.
    /// If there is none, [`HashTable::from_raw_bytes_unchecked`] accepts the store. The cost is one
    /// pass over the bytes.
    pub fn init_store(
        store: &mut D,
        max_item_count: usize,
        max_load_factor_percent: u8,
    ) -> Result<(), Error> {
        let lengths: Fixed<C::EncodedKey, C::EncodedValue> = Fixed::new();
        init_bytes::<Fixed<C::EncodedKey, C::EncodedValue>, C::H, D>(
            lengths,
            store,
            max_item_count,
            max_load_factor_percent,
        )
    }

    /// Inserts a pair, and returns the former value of the key: on valid bytes the table's value
    /// for the key.
    ///
    /// The only error is `Full`, and then nothing changes. On valid bytes it is returned exactly if
    /// the table is at its maximum and the key is absent. A present key always gets the new value.
    /// docs/FORMAT.md, "Insert" and "At the maximum", specifies the rules.
    ///
    /// On any bytes one of three things happens, and no other byte changes:
    ///
    /// - The value changes in one entry, of any slot, whose key is equal.
    /// - If the header's count is below its maximum: one entry and its tag are written to a slot
    ///   that counted as free, and below slot 16 also the tag's mirror. The count rises by one.
    /// - The call returns `Full`. This requires that a search slot by slot can end without the key.
    ///   It also requires that the header's count is its maximum or more, or that each slot counts
    ///   as occupied.
    ///
    /// The key is hashed once. [`HashTable::get_counted`] counts the groups that such a search
    /// reads.
    #[inline(always)]
    pub fn insert(&mut self, key: &C::Key, value: &C::Value) -> Result<Option<C::Value>, Error> {
        self.allocation.insert_by::<GroupQuery>(key, value)
    }

    /// Inserts the items in their order, and stops at the first whose insert fails. Returns how
    /// many were accepted, and `Full` where one failed. The table is then as the accepted ones
    /// left it; on valid bytes it is at its maximum, and the key of the item that failed is
    /// absent.
    ///
    /// On any bytes each accepted item changes no more than `insert` may, and the item that failed
    /// is one for which `insert` may return `Full`.
    pub fn insert_all(&mut self, items: &[(C::Key, C::Value)]) -> (usize, Result<(), Error>) {
        self.insert_items(&items)
    }

    /// `insert_all` of items in any form, such as the keys and the values of two slices
    /// ([`Zipped`](crate::generated::tables::items::Zipped)).
    #[inline(always)]
    pub fn insert_items<I: Items<C::Key, C::Value>>(
        &mut self,
        items: &I,
    ) -> (usize, Result<(), Error>) {
        let accepted = self.allocation.insert_items(items, 0);
        if accepted < items.count() {
            return (accepted, Err(Error::Full));
        }
        (accepted, Ok(()))
    }
}
