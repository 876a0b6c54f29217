//! New tables and inserts in bytes that can be written.

use super::HashTable;
use crate::config::{Config, Proved};
use crate::generated::base::bytes::BorrowedMut;
use crate::generated::header::error::Error;
use crate::generated::header::layout::Layout;
use crate::generated::tables;
use crate::opened::{count_again, Opened};
use crate::sizes::{percent_of, refused};
use alloc::boxed::Box;
use std::borrow::{Borrow, BorrowMut};
use std::error::Error as AnyError;
use std::marker::PhantomData;

impl<C: Config, D: Borrow<[u8]> + BorrowMut<[u8]>> HashTable<C, D> {
    /// Like [`try_init_in_place`](HashTable::try_init_in_place), but returns the [`Error`] in a
    /// box, as the original does. Code that was written for the original compiles. New code should
    /// call `try_init_in_place`, since `?` does not turn this box into a
    /// `Box<dyn Error + Send + Sync>`.
    ///
    /// ```
    /// use odht::{bytes_needed, configs::U64ToU32, HashTable};
    ///
    /// let bytes = vec![0; bytes_needed::<U64ToU32>(3, 95)];
    /// let mut table = HashTable::<U64ToU32, _>::init_in_place(bytes, 3, 95)?;
    /// assert_eq!(table.insert(&1, &2), None);
    /// # Ok::<(), Box<dyn std::error::Error>>(())
    /// ```
    ///
    /// # Errors
    ///
    /// Those of [`try_init_in_place`](HashTable::try_init_in_place).
    ///
    /// # Panics
    ///
    /// Panics if the percentage is not from 1 to 100.
    #[track_caller]
    pub fn init_in_place(
        data: D,
        max_item_count: usize,
        max_load_factor_percent: u8,
    ) -> Result<Self, Box<dyn AnyError>> {
        Ok(Self::try_init_in_place(data, max_item_count, max_load_factor_percent)?)
    }

    /// Creates an empty table for `max_item_count` items in `data`, over any bytes that are there.
    /// The length of `data` must be [`bytes_needed`](crate::bytes_needed).
    /// `max_load_factor_percent` is the percentage of the slots that may be occupied.
    ///
    /// ```
    /// use odht::{bytes_needed, configs::U64ToU32, Error, HashTable};
    ///
    /// let bytes = vec![0; bytes_needed::<U64ToU32>(3, 95)];
    /// let mut table = HashTable::<U64ToU32, _>::try_init_in_place(bytes, 3, 95)?;
    /// assert_eq!(table.insert(&1, &2), None);
    /// assert_eq!(table.insert(&1, &5), Some(2));
    /// let stored: Vec<u8> = table.into_data();
    ///
    /// let error = HashTable::<U64ToU32, _>::try_init_in_place(vec![0; 255], 3, 95).unwrap_err();
    /// assert_eq!(error, Error::InitLength { found: 255, expected: 256 });
    /// # Ok::<(), Error>(())
    /// ```
    ///
    /// # Errors
    ///
    /// [`Error::Capacity`] if no table is large enough, otherwise [`Error::InitLength`] if `data`
    /// has another length.
    ///
    /// # Panics
    ///
    /// Panics if the percentage is not from 1 to 100.
    #[track_caller]
    pub fn try_init_in_place(
        mut data: D,
        max_item_count: usize,
        max_load_factor_percent: u8,
    ) -> Result<Self, Error> {
        let percent = percent_of::<C>(max_load_factor_percent);
        let store = BorrowedMut::new(data.borrow_mut());
        let table =
            tables::HashTable::<Proved<C>, _>::init_in_place(store, max_item_count, percent)?;
        let opened = Opened::of(table.raw_bytes(), Layout::of::<Proved<C>>());
        Ok(HashTable { data, opened, config: PhantomData })
    }

    // The bytes, for writing. Panics if their length or slot count has changed.
    #[inline(always)]
    pub(super) fn bytes_mut(&mut self) -> &mut [u8] {
        let bytes = self.data.borrow_mut();
        self.opened.check(bytes, Layout::of::<Proved<C>>());
        bytes
    }

    // The proved table of the bytes, to be written.
    #[inline(always)]
    fn view_mut(&mut self) -> tables::HashTable<Proved<C>, BorrowedMut<'_>> {
        tables::HashTable::from_raw_bytes_unchecked(BorrowedMut::new(self.bytes_mut()))
    }

    /// Inserts a pair, and returns the former value of the key. A view cannot grow, so a new key
    /// needs a free slot, and an item count below the maximum.
    ///
    /// The key is hashed once, and each group of control bytes is read at most once.
    ///
    /// ```
    /// use odht::{bytes_needed, configs::U64ToU32, HashTable};
    ///
    /// let mut bytes = vec![0; bytes_needed::<U64ToU32>(3, 95)];
    /// let mut table = HashTable::<U64ToU32, _>::try_init_in_place(&mut bytes[..], 3, 95)?;
    /// assert_eq!(table.insert(&1, &2), None);
    /// assert_eq!(table.insert(&1, &5), Some(2));
    /// # Ok::<(), odht::Error>(())
    /// ```
    ///
    /// # Panics
    ///
    /// Panics if the key is new and the table is at its maximum. In bytes that are not those of a
    /// valid table, also if no slot is free. Nothing changes then.
    // Always inlined, so that the location of the caller, which a panic reports, is not passed to
    // the insert itself.
    #[inline(always)]
    #[track_caller]
    pub fn insert(&mut self, key: &C::Key, value: &C::Value) -> Option<C::Value> {
        match self.try_insert(key, value) {
            Ok(former) => former,
            Err(e) => refused(e, 0),
        }
    }

    /// Like [`insert`](HashTable::insert), but returns an error instead of panicking.
    ///
    /// ```
    /// use odht::{bytes_needed, configs::U64ToU32, Error, HashTable};
    ///
    /// let bytes = vec![0; bytes_needed::<U64ToU32>(13, 87)];
    /// let mut table = HashTable::<U64ToU32, _>::try_init_in_place(bytes, 13, 87)?;
    /// table.insert(&0, &0);
    /// for key in 1..13 {
    ///     assert_eq!(table.try_insert(&key, &0), Ok(None));
    /// }
    /// assert_eq!(table.try_insert(&13, &0), Err(Error::Full));
    /// assert_eq!(table.try_insert(&12, &5), Ok(Some(0)));
    /// # Ok::<(), odht::Error>(())
    /// ```
    ///
    /// # Errors
    ///
    /// [`Error::Full`] if the key is new and the table is at its maximum. In bytes that are not
    /// those of a valid table, also if no slot is free. Nothing changes then.
    #[inline]
    pub fn try_insert(
        &mut self,
        key: &C::Key,
        value: &C::Value,
    ) -> Result<Option<C::Value>, Error> {
        self.view_mut().insert(key, value)
    }

    /// Inserts all items in order. This is faster than a loop of `insert`. The header is read and
    /// written only once for the list, and in a large table the loads of eight keys overlap.
    ///
    /// ```
    /// use odht::{bytes_needed, configs::U64ToU32, HashTable};
    ///
    /// let bytes = vec![0; bytes_needed::<U64ToU32>(3, 95)];
    /// let mut table = HashTable::<U64ToU32, _>::try_init_in_place(bytes, 3, 95)?;
    /// table.insert_all(&[(1, 2), (3, 4), (5, 6)]);
    /// assert_eq!(table.len(), 3);
    /// # Ok::<(), odht::Error>(())
    /// ```
    ///
    /// # Panics
    ///
    /// Panics if the next key is new and the table is at its maximum. The items before it stay
    /// inserted.
    #[track_caller]
    pub fn insert_all(&mut self, items: &[(C::Key, C::Value)]) {
        if let (_, Err(e)) = self.try_insert_all(items) {
            refused(e, 0)
        }
    }

    /// Like [`insert_all`](HashTable::insert_all), but stops at the first item whose insert fails.
    /// Returns the number of inserted items, and the error.
    ///
    /// ```
    /// use odht::{bytes_needed, configs::U64ToU32, Error, HashTable};
    ///
    /// let bytes = vec![0; bytes_needed::<U64ToU32>(13, 87)];
    /// let mut table = HashTable::<U64ToU32, _>::try_init_in_place(bytes, 13, 87)?;
    /// let items: Vec<_> = (0..20).map(|n| (n, 0)).collect();
    /// assert_eq!(table.try_insert_all(&items), (13, Err(Error::Full)));
    /// # Ok::<(), odht::Error>(())
    /// ```
    ///
    /// # Errors
    ///
    /// [`Error::Full`] if the next key is new and the table is at its maximum. The items before it
    /// stay inserted.
    pub fn try_insert_all(&mut self, items: &[(C::Key, C::Value)]) -> (usize, Result<(), Error>) {
        let list = List { bytes: self.bytes_mut(), config: PhantomData::<C> };
        let store = BorrowedMut::new(&mut *list.bytes);
        let mut view = tables::HashTable::<Proved<C>, _>::from_raw_bytes_unchecked(store);
        let done = view.insert_all(items);
        std::mem::forget(list);
        done
    }
}

// The bytes of a table while a list is inserted. The item count is written only after the list. If
// the configuration's code panics within the list, `drop` counts the items that were inserted.
struct List<'b, C: Config> {
    bytes: &'b mut [u8],
    config: PhantomData<C>,
}

impl<C: Config> Drop for List<'_, C> {
    #[cold]
    fn drop(&mut self) {
        count_again(self.bytes, Layout::of::<Proved<C>>());
    }
}
