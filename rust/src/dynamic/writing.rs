//! New tables and inserts in bytes that can be written.

use super::{DynError, DynTable, Layout, ShortBytes};
use crate::config::{Hash, HashFn};
use crate::generated::base::bytes::{Borrowed, BorrowedMut};
use crate::generated::tables::dynamic;
use crate::opened::Opened;
use crate::sizes::percent;
use std::borrow::{Borrow, BorrowMut};
use std::marker::PhantomData;

impl Layout {
    /// Returns the length in bytes of a new table for `max_item_count` items, with these key and
    /// value lengths. [`DynTable::init_in_place`] needs bytes of this length.
    /// `max_load_factor_percent` is the percentage of the slots that may be occupied. Returns
    /// `None` if no table is large enough.
    ///
    /// ```
    /// use odht::{bytes_needed, configs::U64ToU32, dynamic::Layout};
    ///
    /// assert_eq!(Layout { key_len: 8, value_len: 4 }.bytes_needed(3, 95), Some(256));
    /// assert_eq!(bytes_needed::<U64ToU32>(3, 95), 256);
    /// ```
    ///
    /// # Panics
    ///
    /// Panics if the percentage is not from 1 to 100.
    #[track_caller]
    #[must_use]
    pub fn bytes_needed(self, max_item_count: usize, max_load_factor_percent: u8) -> Option<usize> {
        let percent = percent(max_load_factor_percent);
        // The hash function does not matter.
        dynamic::DynTable::<Hash<crate::FxHashFn>, Borrowed<'_>>::bytes_needed(
            self.proved(),
            max_item_count,
            percent,
        )
    }
}

impl<H: HashFn, D: Borrow<[u8]> + BorrowMut<[u8]>> DynTable<H, D> {
    /// Creates an empty table for `max_item_count` items in `data`, over any bytes that are there.
    /// The length of `data` must be [`Layout::bytes_needed`]. `max_load_factor_percent` is the
    /// percentage of the slots that may be occupied.
    ///
    /// ```
    /// use odht::dynamic::{DynError, DynTable, Layout};
    /// use odht::{Error, FxHashFn};
    ///
    /// let layout = Layout { key_len: 3, value_len: 1 };
    /// let len = layout.bytes_needed(100, 87).ok_or(DynError::Rejected(Error::Capacity))?;
    /// let mut table = DynTable::<FxHashFn, _>::init_in_place(layout, vec![0; len], 100, 87)?;
    /// table.insert(b"one", &[1])?;
    /// table.insert(b"two", &[2])?;
    /// assert_eq!(table.get(b"two"), Some(&[2][..]));
    /// let stored: Vec<u8> = table.into_data();
    /// # assert_eq!(stored.len(), len);
    /// # Ok::<(), DynError>(())
    /// ```
    ///
    /// # Errors
    ///
    /// Returns the first of these errors that applies:
    ///
    /// - `KeyTooShort` if the hash function needs longer keys
    /// - `Rejected` with [`Error::Capacity`] if no table is large enough
    /// - `Rejected` with [`Error::InitLength`] if `data` has another length
    ///
    /// # Panics
    ///
    /// Panics if the percentage is not from 1 to 100.
    ///
    /// [`Error::Capacity`]: crate::Error::Capacity
    /// [`Error::InitLength`]: crate::Error::InitLength
    #[track_caller]
    pub fn init_in_place(
        layout: Layout,
        mut data: D,
        max_item_count: usize,
        max_load_factor_percent: u8,
    ) -> Result<Self, DynError> {
        let percent = percent(max_load_factor_percent);
        let bytes = data.borrow_mut();
        dynamic::DynTable::<Hash<H>, _>::init_store(
            layout.proved(),
            &mut BorrowedMut::new(&mut *bytes),
            max_item_count,
            percent,
        )?;
        let opened = Opened::of(bytes, layout.proved());
        Ok(DynTable { data, layout, opened, hash: PhantomData })
    }

    // The bytes, to be written. Panics if their length or slot count has changed.
    #[inline(always)]
    pub(super) fn bytes_mut(&mut self) -> &mut [u8] {
        let bytes = self.data.borrow_mut();
        self.opened.check(bytes, self.layout.proved());
        bytes
    }

    // The proved table of the bytes, to be written.
    #[inline(always)]
    pub(super) fn view_mut(&mut self) -> dynamic::DynTable<Hash<H>, BorrowedMut<'_>> {
        let layout = self.layout.proved();
        dynamic::DynTable::open_unchecked(layout, BorrowedMut::new(self.bytes_mut()))
    }

    /// Inserts a pair, and returns the former value of the key. The table cannot grow, so a new key
    /// needs a free slot, and an item count below the maximum.
    ///
    /// The key is hashed once, and each group of control bytes is read at most once. Allocates
    /// nothing.
    ///
    /// ```
    /// use odht::dynamic::{DynError, DynTable, Layout};
    /// use odht::{Error, FxHashFn};
    ///
    /// let layout = Layout { key_len: 3, value_len: 1 };
    /// let mut bytes = [0; 128];
    /// let mut table = DynTable::<FxHashFn, _>::init_in_place(layout, &mut bytes[..], 13, 87)?;
    /// assert_eq!(table.insert(b"one", &[1])?, None);
    /// assert_eq!(table.insert(b"one", &[7])?.as_deref(), Some(&[1][..]));
    ///
    /// let error = table.insert(b"three", &[3]).unwrap_err();
    /// assert_eq!(error, DynError::WrongKeyLength { expected: 3, found: 5 });
    /// let error = table.insert(b"two", &[2, 0]).unwrap_err();
    /// assert_eq!(error, DynError::WrongValueLength { expected: 1, found: 2 });
    ///
    /// for n in 1..13 {
    ///     table.insert(&[n; 3], &[n])?;
    /// }
    /// assert_eq!(table.insert(&[13; 3], &[13]), Err(DynError::Rejected(Error::Full)));
    /// assert_eq!(table.insert(b"one", &[1])?.as_deref(), Some(&[7][..]));
    /// # Ok::<(), DynError>(())
    /// ```
    ///
    /// # Errors
    ///
    /// Returns the first of these errors that applies:
    ///
    /// - `WrongKeyLength` if the key is longer or shorter than the keys of the table
    /// - `WrongValueLength` if the value is longer or shorter than its values
    /// - `Rejected` with [`Error::Full`] if the key is new and the table is at its maximum. In
    ///   bytes that are not those of a valid table, also if no slot is free.
    ///
    /// On an error nothing changes.
    ///
    /// [`Error::Full`]: crate::Error::Full
    #[inline(always)]
    pub fn insert(&mut self, key: &[u8], value: &[u8]) -> Result<Option<ShortBytes>, DynError> {
        // A result that has room for 255 bytes is not handed from call to call: `insert_into` is
        // inlined, and the value is copied once more, where it is.
        let mut former = [0; 255];
        let former = &mut former[..usize::from(self.layout.value_len)];
        let had = self.insert_into(key, value, former)?;
        Ok(had.then(|| ShortBytes::of(former)))
    }

    /// Like [`insert`](DynTable::insert), but writes the former value to `former`, and returns
    /// whether there is one. It takes fewer instructions, since no value is copied more than once.
    ///
    /// ```
    /// use odht::dynamic::{DynError, DynTable, Layout};
    /// use odht::FxHashFn;
    ///
    /// let layout = Layout { key_len: 3, value_len: 1 };
    /// let mut bytes = [0; 128];
    /// let mut table = DynTable::<FxHashFn, _>::init_in_place(layout, &mut bytes[..], 13, 87)?;
    /// let mut former = [0];
    /// assert!(!table.insert_into(b"one", &[1], &mut former)?);
    /// assert!(table.insert_into(b"one", &[7], &mut former)?);
    /// assert_eq!(former, [1]);
    ///
    /// let error = table.insert_into(b"one", &[8], &mut [0, 0]).unwrap_err();
    /// assert_eq!(error, DynError::WrongValueLength { expected: 1, found: 2 });
    /// # Ok::<(), DynError>(())
    /// ```
    ///
    /// # Errors
    ///
    /// Those of `insert`, and `WrongValueLength` if `former` is longer or shorter than the values
    /// of the table. On an error the table and `former` do not change. `former` does not change
    /// either if the key had no value.
    #[inline]
    pub fn insert_into(
        &mut self,
        key: &[u8],
        value: &[u8],
        former: &mut [u8],
    ) -> Result<bool, DynError> {
        self.view_mut().insert_into(key, value, former)
    }
}
