//! Constructors of the table that owns its bytes.

use super::{percent_of, refused, tables, AnyError, Config, Error, Global, HashTableOwned, Proved};
use crate::opened::Opened;
use crate::try_bytes_needed;
use alloc::boxed::Box;
use alloc::vec::Vec;

impl<C: Config> HashTableOwned<C> {
    /// Creates an empty table for twelve items at a load factor of 87 percent. It has sixteen
    /// slots.
    ///
    /// ```
    /// use odht::{configs::U64ToU32, HashTableOwned};
    ///
    /// assert!(HashTableOwned::<U64ToU32>::new().is_empty());
    /// ```
    #[must_use]
    pub fn new() -> Self {
        Self::default()
    }

    /// Creates an empty table that takes at least `max_item_count` items before it grows.
    /// `max_load_factor_percent` is the percentage of the slots that may be occupied.
    ///
    /// ```
    /// use odht::{configs::U64ToU32, HashTableOwned};
    ///
    /// let table = HashTableOwned::<U64ToU32>::with_capacity(1000, 87);
    /// assert_eq!(table.raw_bytes().len(), 32 + 2048 * (8 + 4) + 2048 + 16);
    /// ```
    ///
    /// # Panics
    ///
    /// Panics if the percentage is not from 1 to 100, or if no table is large enough. If allocation
    /// fails, it panics or ends the program, as Rust's collections do.
    #[track_caller]
    #[must_use]
    pub fn with_capacity(max_item_count: usize, max_load_factor_percent: u8) -> Self {
        match Self::try_with_capacity(max_item_count, max_load_factor_percent) {
            Ok(table) => table,
            Err(e) => {
                let len = try_bytes_needed::<C>(max_item_count, max_load_factor_percent);
                refused(e, len.unwrap_or(0))
            }
        }
    }

    /// Like [`with_capacity`](HashTableOwned::with_capacity), but returns an error if no table is
    /// large enough or allocation fails.
    ///
    /// ```
    /// use odht::{configs::U64ToU32, Error, HashTableOwned};
    ///
    /// let error = HashTableOwned::<U64ToU32>::try_with_capacity(usize::MAX, 87).unwrap_err();
    /// assert_eq!(error, Error::Capacity);
    /// ```
    ///
    /// # Errors
    ///
    /// - [`Error::Capacity`] if no slot count is large enough, or the length exceeds `usize::MAX`
    /// - [`Error::Memory`] if allocation fails
    ///
    /// # Panics
    ///
    /// Panics if the percentage is not from 1 to 100.
    #[track_caller]
    pub fn try_with_capacity(
        max_item_count: usize,
        max_load_factor_percent: u8,
    ) -> Result<Self, Error> {
        let percent = percent_of::<C>(max_load_factor_percent);
        tables::HashTableOwned::with_capacity(Global, max_item_count, percent).map(HashTableOwned)
    }

    /// Creates a table of the items. It collects them first and creates a table for their number,
    /// which therefore does not grow. If a key occurs again, the later item overwrites the value.
    ///
    /// ```
    /// use odht::{configs::U64ToU32, HashTableOwned};
    ///
    /// let squares = HashTableOwned::<U64ToU32>::from_iterator((1..=9).map(|n| (n, (n * n) as u32)), 87);
    /// assert_eq!(squares.get(&7), Some(49));
    /// ```
    ///
    /// # Panics
    ///
    /// Panics when [`with_capacity`](HashTableOwned::with_capacity) does.
    #[track_caller]
    #[must_use]
    pub fn from_iterator<I: IntoIterator<Item = (C::Key, C::Value)>>(
        items: I,
        max_load_factor_percent: u8,
    ) -> Self {
        let items: Vec<(C::Key, C::Value)> = items.into_iter().collect();
        let mut table = Self::with_capacity(items.len(), max_load_factor_percent);
        table.insert_all(&items);
        table
    }

    /// Like [`from_iterator`](HashTableOwned::from_iterator), but returns an error if no table is
    /// large enough or allocation fails.
    ///
    /// ```
    /// use odht::{configs::U64ToU32, HashTableOwned};
    ///
    /// let squares = HashTableOwned::<U64ToU32>::try_from_iterator([(2, 4), (3, 9)], 87)?;
    /// assert_eq!(squares.get(&3), Some(9));
    /// # Ok::<(), odht::Error>(())
    /// ```
    ///
    /// # Errors
    ///
    /// Those of [`try_with_capacity`](HashTableOwned::try_with_capacity).
    ///
    /// # Panics
    ///
    /// Panics if the percentage is not from 1 to 100.
    #[track_caller]
    pub fn try_from_iterator<I: IntoIterator<Item = (C::Key, C::Value)>>(
        items: I,
        max_load_factor_percent: u8,
    ) -> Result<Self, Error> {
        let percent = percent_of::<C>(max_load_factor_percent);
        tables::HashTableOwned::from_iterator(Global, items.into_iter(), percent)
            .map(HashTableOwned)
    }

    /// Like [`try_from_raw_bytes`](HashTableOwned::try_from_raw_bytes), but returns the [`Error`]
    /// in a box, as the original does. Code that was written for the original compiles. New code
    /// should call `try_from_raw_bytes`, since `?` does not turn this box into a
    /// `Box<dyn Error + Send + Sync>`.
    ///
    /// ```
    /// use odht::{configs::U64ToU32, HashTableOwned};
    ///
    /// let mut table = HashTableOwned::<U64ToU32>::default();
    /// table.insert(&1, &2);
    /// let copy = HashTableOwned::<U64ToU32>::from_raw_bytes(table.raw_bytes())?;
    /// assert_eq!(copy.get(&1), Some(2));
    /// # Ok::<(), Box<dyn std::error::Error>>(())
    /// ```
    ///
    /// # Errors
    ///
    /// Those of [`try_from_raw_bytes`](HashTableOwned::try_from_raw_bytes).
    pub fn from_raw_bytes(data: &[u8]) -> Result<Self, Box<dyn AnyError>> {
        Ok(Self::try_from_raw_bytes(data)?)
    }

    /// Checks all of the bytes, and copies them into a new table. Bytes that
    /// [`check_all`](crate::check_all) rejects are not copied. The check costs what that call
    /// costs.
    ///
    /// ```
    /// use odht::{configs::U64ToU32, Error, HashTableOwned};
    ///
    /// let error = HashTableOwned::<U64ToU32>::try_from_raw_bytes(b"no table").unwrap_err();
    /// assert_eq!(error, Error::TooShort { found: 8 });
    /// ```
    ///
    /// # Errors
    ///
    /// The first error that [`check_all`](crate::check_all) finds. If it finds none,
    /// [`Error::Memory`] if allocation fails.
    pub fn try_from_raw_bytes(data: &[u8]) -> Result<Self, Error> {
        let () = Proved::<C>::FITS;
        tables::HashTableOwned::from_raw_bytes(Global, data).map(HashTableOwned)
    }

    /// Like [`try_from_raw_bytes`](HashTableOwned::try_from_raw_bytes), for untrusted bytes. Like
    /// [`check_all_within`](crate::check_all_within), it also rejects bytes in which a search may
    /// read more than `groups` groups of sixteen control bytes.
    ///
    /// ```
    /// use odht::{configs::U64ToU32, HashTableOwned, DEFAULT_GROUPS};
    ///
    /// let mut table = HashTableOwned::<U64ToU32>::default();
    /// table.insert(&1, &2);
    /// let copy = HashTableOwned::<U64ToU32>::from_raw_bytes_within(table.raw_bytes(), DEFAULT_GROUPS)?;
    /// assert_eq!(copy.get(&1), Some(2));
    /// # Ok::<(), odht::Error>(())
    /// ```
    ///
    /// # Errors
    ///
    /// The first error that [`check_all_within`](crate::check_all_within) finds. If it finds none,
    /// [`Error::Memory`] if allocation fails.
    pub fn from_raw_bytes_within(data: &[u8], groups: usize) -> Result<Self, Error> {
        let () = Proved::<C>::FITS;
        tables::HashTableOwned::from_raw_bytes_within(Global, data, groups).map(HashTableOwned)
    }

    /// Copies the bytes into a new table. It checks only their length and slot count. If allocation
    /// fails, it panics or ends the program, as Rust's collections do.
    ///
    /// ```
    /// # use odht::{configs::U64ToU32, HashTableOwned};
    /// # let mut table = HashTableOwned::<U64ToU32>::default();
    /// # table.insert(&1, &2);
    /// // SAFETY: these are the bytes of a table of this configuration.
    /// let copy = unsafe { HashTableOwned::<U64ToU32>::from_raw_bytes_unchecked(table.raw_bytes()) };
    /// assert_eq!(copy.get(&1), Some(2));
    /// ```
    ///
    /// # Safety
    ///
    /// The bytes must be ones that [`check_all`](crate::check_all) accepts. With other bytes, calls
    /// may panic or return anything, but memory stays safe. It is unsafe only because the original
    /// is.
    ///
    /// # Panics
    ///
    /// Panics if the length of the bytes does not match the slot count in their header.
    #[allow(unsafe_code)]
    #[track_caller]
    #[must_use]
    pub unsafe fn from_raw_bytes_unchecked(data: &[u8]) -> Self {
        let () = Proved::<C>::FITS;
        Opened::unchecked::<C>(data);
        match tables::HashTableOwned::from_raw_bytes_unchecked(Global, data) {
            Ok(table) => HashTableOwned(table),
            Err(e) => refused(e, data.len()),
        }
    }

    /// Copies the table. The copy has the same bytes.
    ///
    /// ```
    /// # use odht::{configs::U64ToU32, HashTableOwned};
    /// # let mut table = HashTableOwned::<U64ToU32>::default();
    /// let copy = table.try_clone()?;
    /// assert_eq!(copy.raw_bytes(), table.raw_bytes());
    /// # Ok::<(), odht::Error>(())
    /// ```
    ///
    /// # Errors
    ///
    /// [`Error::Memory`] if allocation fails.
    pub fn try_clone(&self) -> Result<Self, Error> {
        self.0.clone().map(HashTableOwned)
    }
}
