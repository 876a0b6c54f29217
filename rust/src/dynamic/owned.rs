//! The table that owns its bytes, and grows.

use super::{DynTable, Layout, ShortBytes};
use crate::config::{Hash, HashFn};
use crate::generated::tables::dynamic::{self, DynError};
use crate::opened::Opened;
use crate::shim::Global;
use crate::sizes::percent;
use alloc::vec::Vec;
use std::fmt;
use std::iter::FusedIterator;
use std::marker::PhantomData;

/// A table that owns its bytes, and grows when a new key is inserted at its maximum item count. The
/// lengths of keys and values are given when it is created.
///
/// ```
/// use odht::dynamic::{DynTableOwned, Layout};
/// use odht::FxHashFn;
///
/// let layout = Layout { key_len: 3, value_len: 1 };
/// let mut table = DynTableOwned::<FxHashFn>::new(layout)?;
/// for n in 0..200 {
///     table.insert(&[n, 0, 7], &[n])?;
/// }
/// assert_eq!((table.len(), table.get(&[150, 0, 7])), (200, Some(&[150][..])));
/// assert_eq!(table.insert(&[150, 0, 7], &[1])?.as_deref(), Some(&[150][..]));
/// let stored: Vec<u8> = table.into_raw_bytes();
/// # assert_eq!(stored.len(), 32 + 256 * 4 + 256 + 16);
/// # Ok::<(), odht::dynamic::DynError>(())
/// ```
pub struct DynTableOwned<H: HashFn>(dynamic::DynTableOwned<Hash<H>>);

impl<H: HashFn> DynTableOwned<H> {
    /// Creates an empty table with these key and value lengths, for twelve items at a load factor
    /// of 87 percent. It has sixteen slots.
    ///
    /// # Errors
    ///
    /// Those of [`with_capacity`](DynTableOwned::with_capacity).
    pub fn new(layout: Layout) -> Result<Self, DynError> {
        Self::with_capacity(layout, 12, 87)
    }

    /// Creates an empty table with these key and value lengths, which takes at least
    /// `max_item_count` items before it grows. `max_load_factor_percent` is the percentage of the
    /// slots that may be occupied.
    ///
    /// ```
    /// use odht::dynamic::{DynError, DynTableOwned, Layout};
    /// use odht::{Error, UnHashFn};
    ///
    /// let made = |key_len, items| {
    ///     let layout = Layout { key_len, value_len: 1 };
    ///     DynTableOwned::<UnHashFn>::with_capacity(layout, items, 87).err()
    /// };
    /// assert_eq!(made(4, 100), None);
    /// assert_eq!(made(3, 100), Some(DynError::KeyTooShort { key_len: 3, least: 4 }));
    /// assert_eq!(made(4, usize::MAX), Some(DynError::Rejected(Error::Capacity)));
    /// ```
    ///
    /// # Errors
    ///
    /// Returns the first of these errors that applies:
    ///
    /// - `KeyTooShort` if the hash function needs longer keys
    /// - `Rejected` with [`Error::Capacity`] if no slot count is large enough, or the length
    ///   exceeds `usize::MAX`
    /// - `Rejected` with [`Error::Memory`] if allocation fails
    ///
    /// # Panics
    ///
    /// Panics if the percentage is not from 1 to 100.
    ///
    /// [`Error::Capacity`]: crate::Error::Capacity
    /// [`Error::Memory`]: crate::Error::Memory
    #[track_caller]
    pub fn with_capacity(
        layout: Layout,
        max_item_count: usize,
        max_load_factor_percent: u8,
    ) -> Result<Self, DynError> {
        let percent = percent(max_load_factor_percent);
        dynamic::DynTableOwned::with_capacity(Global, layout.proved(), max_item_count, percent)
            .map(DynTableOwned)
    }

    /// Checks all of the bytes as a table with these key and value lengths, and copies them. Bytes
    /// that [`check_all`](crate::check_all) rejects are not copied. The check costs what that call
    /// costs.
    ///
    /// ```
    /// # use odht::{configs::U64ToU32, dynamic::{DynTableOwned, Layout}, FxHashFn, HashTableOwned};
    /// # let mut table = HashTableOwned::<U64ToU32>::default();
    /// table.insert(&1, &2);
    /// let layout = Layout::of::<U64ToU32>();
    /// let copy = DynTableOwned::<FxHashFn>::from_raw_bytes(layout, table.raw_bytes())?;
    /// assert_eq!(copy.get(&1_u64.to_le_bytes()), Some(&2_u32.to_le_bytes()[..]));
    /// # Ok::<(), odht::dynamic::DynError>(())
    /// ```
    ///
    /// # Errors
    ///
    /// Returns the first of these errors that applies:
    ///
    /// - `KeyTooShort` if the hash function needs longer keys
    /// - `Rejected` with the first error that `check_all` finds
    /// - `Rejected` with [`Error::Memory`](crate::Error::Memory) if allocation fails
    pub fn from_raw_bytes(layout: Layout, data: &[u8]) -> Result<Self, DynError> {
        dynamic::DynTableOwned::from_raw_bytes(Global, layout.proved(), data).map(DynTableOwned)
    }

    /// Inserts a pair, and returns the former value of the key. If the key is new and the table is
    /// at its maximum, the table grows. The value of a present key is overwritten in place, which
    /// allocates nothing.
    ///
    /// The key is hashed once. If the table grows, all items are hashed and placed again, and the
    /// key is hashed again.
    ///
    /// ```
    /// use odht::dynamic::{DynError, DynTableOwned, Layout};
    /// use odht::FxHashFn;
    ///
    /// let mut table = DynTableOwned::<FxHashFn>::new(Layout { key_len: 3, value_len: 1 })?;
    /// assert_eq!(table.insert(b"one", &[1])?, None);
    /// let error = table.insert(b"three", &[3]).unwrap_err();
    /// assert_eq!(error, DynError::WrongKeyLength { expected: 3, found: 5 });
    /// # Ok::<(), DynError>(())
    /// ```
    ///
    /// # Errors
    ///
    /// Returns the first of these errors that applies:
    ///
    /// - `WrongKeyLength` if the key is longer or shorter than the keys of the table
    /// - `WrongValueLength` if the value is longer or shorter than its values
    /// - `Rejected` with [`Error::Memory`](crate::Error::Memory) if the table would grow, and
    ///   allocation fails or no table is that large
    ///
    /// On an error nothing changes.
    #[inline]
    pub fn insert(&mut self, key: &[u8], value: &[u8]) -> Result<Option<ShortBytes>, DynError> {
        let former = self.0.insert(key, value)?;
        Ok(former.map(ShortBytes))
    }

    /// Makes room for `additional` more items, so that inserting this number of new keys does not
    /// grow the table. If the table has the room, nothing changes and nothing is allocated.
    /// Otherwise its pairs are placed again, in the fewest slots that suffice, at the same load
    /// factor.
    ///
    /// Placing the pairs again takes one pass over the slots. Each item is hashed once.
    ///
    /// ```
    /// use odht::dynamic::{DynError, DynTableOwned, Layout};
    /// use odht::{Error, FxHashFn};
    ///
    /// let mut table = DynTableOwned::<FxHashFn>::new(Layout { key_len: 3, value_len: 1 })?;
    /// table.reserve(100)?;
    /// assert_eq!(table.raw_bytes().len(), 32 + 128 * 4 + 128 + 16);
    /// assert_eq!(table.reserve(usize::MAX), Err(DynError::Rejected(Error::Capacity)));
    /// # Ok::<(), DynError>(())
    /// ```
    ///
    /// # Errors
    ///
    /// - `Rejected` with [`Error::Capacity`](crate::Error::Capacity) if no slot count is large
    ///   enough, or the length exceeds `usize::MAX`
    /// - `Rejected` with [`Error::Memory`](crate::Error::Memory) if allocation fails
    ///
    /// On an error nothing changes.
    pub fn reserve(&mut self, additional: usize) -> Result<(), DynError> {
        self.0.reserve(additional)
    }

    /// Returns a view of the table, which has all calls that read a table.
    ///
    /// ```
    /// # use odht::{dynamic::{DynTableOwned, Layout}, FxHashFn};
    /// let table = DynTableOwned::<FxHashFn>::new(Layout { key_len: 3, value_len: 1 })?;
    /// assert!(table.as_view().verify());
    /// # Ok::<(), odht::dynamic::DynError>(())
    /// ```
    #[must_use]
    pub fn as_view(&self) -> DynTable<H, &[u8]> {
        let data = self.raw_bytes();
        let opened = Opened::of(data, self.0.layout());
        DynTable { data, layout: self.layout(), opened, hash: PhantomData }
    }

    /// Returns the lengths of keys and values.
    #[inline]
    #[must_use]
    pub fn layout(&self) -> Layout {
        let layout = self.0.layout();
        Layout { key_len: layout.key_len, value_len: layout.value_len }
    }

    /// Returns the value that the last insert of the key stored, or `None`. A key of another length
    /// has no value.
    #[inline]
    #[must_use]
    pub fn get(&self, key: &[u8]) -> Option<&[u8]> {
        self.0.get(key)
    }

    /// Like [`get`](DynTableOwned::get), and also returns how many groups of sixteen control bytes
    /// it read. These are the groups up to the first slot that is free or contains the key. For a
    /// key of another length it reads none.
    #[inline]
    #[must_use]
    pub fn get_counted(&self, key: &[u8]) -> (Option<&[u8]>, usize) {
        self.0.get_counted(key)
    }

    /// Returns `true` if the key has a value.
    #[inline]
    #[must_use]
    pub fn contains_key(&self, key: &[u8]) -> bool {
        self.0.contains_key(key)
    }

    /// Returns an iterator over the keys and values, in slot order.
    pub fn iter(&self) -> impl FusedIterator<Item = (&[u8], &[u8])> {
        self.0.iter()
    }

    /// Returns the number of items.
    #[inline]
    #[must_use]
    pub fn len(&self) -> usize {
        self.0.len()
    }

    /// Returns `true` if the table has no items.
    #[inline]
    #[must_use]
    pub fn is_empty(&self) -> bool {
        self.len() == 0
    }

    /// Returns the bytes of the table. You can store them as they are.
    #[inline]
    #[must_use]
    pub fn raw_bytes(&self) -> &[u8] {
        self.0.raw_bytes()
    }

    /// Consumes the table and returns its bytes, without copying them.
    #[inline]
    #[must_use]
    pub fn into_raw_bytes(self) -> Vec<u8> {
        self.0.into_raw_bytes()
    }
}

impl<H: HashFn> fmt::Debug for DynTableOwned<H> {
    fn fmt(&self, f: &mut fmt::Formatter<'_>) -> fmt::Result {
        f.debug_map().entries(self.iter()).finish()
    }
}
