//! A table in bytes that the user provides.
//!
//! This module ensures what the proved library requires: the length and the slot count of the bytes
//! are those that were opened (`Opened::check`), a load factor is a percentage (`percent_of`), and
//! slices have equal lengths.

use crate::config::{Config, Proved};
use crate::generated::base::bytes::Borrowed;
use crate::generated::base::load::max_item_count_for;
use crate::generated::header::error::Error;
use crate::generated::header::layout::Layout;
use crate::generated::raw::memory_layout::Header;
use crate::generated::tables;
use crate::opened::Opened;
use alloc::boxed::Box;
use std::borrow::Borrow;
use std::error::Error as AnyError;
use std::marker::PhantomData;

mod encoded;
mod equality;
mod growth;
mod prefix;
mod traits;
mod walks;
mod writing;

/// A view of a table in bytes that you provide. It cannot grow, but
/// [`grow_into`](HashTable::grow_into) writes the grown table into other bytes.
///
/// The bytes may be a slice, a vector, an array, an `Arc<[u8]>`, or anything else that implements
/// `Borrow<[u8]>`. If the type also implements `BorrowMut<[u8]>`, pairs can be inserted.
/// [`BytesOf`](crate::BytesOf) wraps types that have only `AsRef<[u8]>`, such as a mapped file. Any
/// number of threads may read a table.
///
/// ```
/// use odht::{configs::U64ToU32, HashTable, HashTableOwned};
///
/// let mut table = HashTableOwned::<U64ToU32>::default();
/// table.insert(&1, &2);
/// let stored = table.raw_bytes().to_vec();
///
/// let view = HashTable::<U64ToU32, _>::try_from_raw_bytes(&stored[..])?;
/// assert_eq!(view.get(&1), Some(2));
/// assert_eq!(view.get(&3), None);
/// # Ok::<(), odht::Error>(())
/// ```
///
/// A reference to a vector, an array from `include_bytes!` and a mapped file do not implement
/// `Borrow<[u8]>`. Open them as a slice, `&bytes[..]`, or with [`BytesOf`](crate::BytesOf):
///
/// ```
/// use odht::{configs::U64ToU32, BytesOf, HashTable, HashTableOwned};
///
/// # struct Mmap(Vec<u8>);
/// # impl Mmap { unsafe fn map(file: &[u8]) -> Result<Mmap, odht::Error> { Ok(Mmap(file.to_vec())) } }
/// # impl std::ops::Deref for Mmap { type Target = [u8]; fn deref(&self) -> &[u8] { &self.0 } }
/// # impl AsRef<[u8]> for Mmap { fn as_ref(&self) -> &[u8] { self } }
/// let vector: Vec<u8> = HashTableOwned::<U64ToU32>::from([(1, 2)]).into();
/// let view = HashTable::<U64ToU32, _>::try_from_raw_bytes(BytesOf(&vector))?;
/// assert_eq!(view.get(&1), Some(2));
///
/// # let file = &vector;
/// # macro_rules! include_bytes { ($file:literal) => { <&[u8; 256]>::try_from(&vector[..]).unwrap() } }
/// let view = HashTable::<U64ToU32, _>::try_from_raw_bytes(BytesOf(include_bytes!("table.odht")))?;
/// assert_eq!(view.get(&1), Some(2));
///
/// // A mapping of the crate `memmap2`. SAFETY: nobody writes to the file while it is mapped.
/// let mapped = unsafe { Mmap::map(file)? };
/// let view = HashTable::<U64ToU32, _>::try_from_raw_bytes(BytesOf(mapped))?;
/// assert_eq!(view.get(&1), Some(2));
/// # Ok::<(), odht::Error>(())
/// ```
///
/// # Panics
///
/// Every call that reads or writes the table panics if `D` returns bytes whose length or slot count
/// differs from that of the bytes that were opened.
///
/// # Mapped files
///
/// If another process rewrites a mapped file, calls may panic or return wrong results; they read and write only the
/// mapped bytes. If it truncates the file, a call faults, as it does for every `&[u8]` of a mapped file.
pub struct HashTable<C: Config, D: Borrow<[u8]>> {
    data: D,
    opened: Opened,
    config: PhantomData<fn() -> C>,
}

impl<C: Config, D: Borrow<[u8]>> HashTable<C, D> {
    /// Like [`try_from_raw_bytes`](HashTable::try_from_raw_bytes), but returns the [`Error`] in a
    /// box, as the original does. Code that was written for the original compiles. New code should
    /// call `try_from_raw_bytes`, since `?` does not turn this box into a
    /// `Box<dyn Error + Send + Sync>`. `downcast_ref` returns the [`Error`].
    ///
    /// ```
    /// use odht::{configs::U64ToU32, HashTable};
    ///
    /// let error = HashTable::<U64ToU32, _>::from_raw_bytes(&b"no table"[..]).unwrap_err();
    /// assert!(matches!(error.downcast_ref(), Some(odht::Error::TooShort { found: 8 })));
    /// ```
    ///
    /// # Errors
    ///
    /// Those of [`try_from_raw_bytes`](HashTable::try_from_raw_bytes).
    pub fn from_raw_bytes(data: D) -> Result<Self, Box<dyn AnyError>> {
        Ok(Self::try_from_raw_bytes(data)?)
    }

    /// Opens bytes as a table. Checks header, length and first ten slots, in constant time.
    ///
    /// The other bytes may be wrong. A view of such bytes does no harm: each call returns or panics
    /// as documented, reads only these bytes, and returns only pairs that are stored in them.
    /// [`check_all`](HashTable::check_all) reports whether all bytes are those of a valid table.
    ///
    /// ```
    /// use odht::{configs::U64ToU32, Error, HashTable};
    ///
    /// let error = HashTable::<U64ToU32, _>::try_from_raw_bytes(vec![0; 256]).unwrap_err();
    /// assert_eq!(error, Error::WrongTag { found: [0; 4] });
    /// ```
    ///
    /// # Errors
    ///
    /// Returns the first of these that applies: `TooShort`, `WrongTag`, `WrongVersion`,
    /// `WrongSizeOf`, `SlotCountNotPowerOfTwo`, `SlotCountTooSmall`, `WrongLength`, and for the
    /// first ten slots `NonZeroEmpty` and `ControlMismatch`.
    pub fn try_from_raw_bytes(data: D) -> Result<Self, Error> {
        let () = Proved::<C>::FITS;
        let bytes = data.borrow();
        tables::HashTable::<Proved<C>, _>::from_raw_bytes(Borrowed::new(bytes))?;
        let opened = Opened::of(bytes, Layout::of::<Proved<C>>());
        Ok(HashTable::of(data, opened))
    }

    /// Like [`try_from_raw_bytes`](HashTable::try_from_raw_bytes), but checks only the length and
    /// the slot count of the bytes, also in constant time.
    ///
    /// ```
    /// # use odht::{configs::U64ToU32, HashTable, HashTableOwned};
    /// # let mut table = HashTableOwned::<U64ToU32>::default();
    /// # table.insert(&1, &2);
    /// // SAFETY: these are the bytes of a table of this configuration.
    /// let view = unsafe { HashTable::<U64ToU32, _>::from_raw_bytes_unchecked(table.raw_bytes()) };
    /// assert_eq!(view.get(&1), Some(2));
    /// ```
    ///
    /// # Safety
    ///
    /// The bytes must be ones that `from_raw_bytes` accepts. With other bytes, calls may panic or
    /// return anything, but memory stays safe. It is unsafe only because the original is.
    ///
    /// # Panics
    ///
    /// Panics if the length of the bytes does not match the slot count in their header.
    #[inline]
    #[allow(unsafe_code)]
    #[track_caller]
    #[must_use]
    pub unsafe fn from_raw_bytes_unchecked(data: D) -> Self {
        let () = Proved::<C>::FITS;
        let opened = Opened::unchecked::<C>(data.borrow());
        HashTable::of(data, opened)
    }

    /// A view of data that was opened.
    pub(crate) fn of(data: D, opened: Opened) -> Self {
        HashTable { data, opened, config: PhantomData }
    }

    // The bytes. Panics if their length or slot count has changed.
    #[inline(always)]
    pub(crate) fn bytes(&self) -> &[u8] {
        let bytes = self.data.borrow();
        self.opened.check(bytes, Layout::of::<Proved<C>>());
        bytes
    }

    // The proved table of the bytes. Opening has checked that their header fits.
    #[inline(always)]
    fn view(&self) -> tables::HashTable<Proved<C>, Borrowed<'_>> {
        tables::HashTable::from_raw_bytes_unchecked(Borrowed::new(self.bytes()))
    }

    /// Returns the value that the last insert of the key stored, or `None`.
    ///
    /// Reads each group of sixteen control bytes at most once.
    ///
    /// ```
    /// # use odht::{configs::U64ToU32, HashTable, HashTableOwned};
    /// # let mut table = HashTableOwned::<U64ToU32>::default();
    /// # table.insert(&1, &2);
    /// let view = HashTable::<U64ToU32, _>::try_from_raw_bytes(table.raw_bytes())?;
    /// assert_eq!(view.get(&1), Some(2));
    /// # Ok::<(), odht::Error>(())
    /// ```
    #[inline]
    #[must_use]
    pub fn get(&self, key: &C::Key) -> Option<C::Value> {
        self.view().get(key)
    }

    /// Looks up many keys, and writes the value of `keys[i]` to `values[i]`. In this crate that is
    /// seldom faster than a loop of `get`: see
    /// [`HashTableOwned::get_all`](crate::HashTableOwned::get_all).
    ///
    /// ```
    /// # use odht::{configs::U64ToU32, HashTable, HashTableOwned};
    /// # let mut table = HashTableOwned::<U64ToU32>::default();
    /// # table.insert(&1, &2);
    /// # let view = HashTable::<U64ToU32, _>::try_from_raw_bytes(table.raw_bytes())?;
    /// let mut values = [None; 2];
    /// view.get_all(&[1, 3], &mut values);
    /// assert_eq!(values, [Some(2), None]);
    /// # Ok::<(), odht::Error>(())
    /// ```
    ///
    /// # Panics
    ///
    /// Panics if `keys` and `values` have different lengths.
    #[inline]
    #[track_caller]
    pub fn get_all(&self, keys: &[C::Key], values: &mut [Option<C::Value>]) {
        assert_eq!(keys.len(), values.len(), "there is a value for each key");
        self.view().get_all(keys, values);
    }

    /// Like [`get`](HashTable::get), and also returns how many groups of sixteen control bytes it
    /// read. In a valid table, these are the groups up to the first slot that is free or contains
    /// the key.
    ///
    /// ```
    /// # use odht::{configs::U64ToU32, HashTableOwned};
    /// # let table = HashTableOwned::<U64ToU32>::from([(1, 2)]);
    /// # let view = table.as_view();
    /// assert_eq!(view.get_counted(&1), (Some(2), 1));
    /// ```
    #[inline]
    #[must_use]
    pub fn get_counted(&self, key: &C::Key) -> (Option<C::Value>, usize) {
        self.view().get_counted(key)
    }

    /// Returns `true` if the key has a value.
    ///
    /// ```
    /// # use odht::{configs::U64ToU32, HashTableOwned};
    /// # let table = HashTableOwned::<U64ToU32>::from([(1, 2)]);
    /// # let view = table.as_view();
    /// assert!(view.contains_key(&1) && !view.contains_key(&3));
    /// ```
    #[inline]
    #[must_use]
    pub fn contains_key(&self, key: &C::Key) -> bool {
        self.view().contains_key(key)
    }

    /// Returns the number of items, as the header states it.
    ///
    /// ```
    /// # use odht::{configs::U64ToU32, HashTableOwned};
    /// # let table = HashTableOwned::<U64ToU32>::from([(1, 2)]);
    /// # let view = table.as_view();
    /// assert_eq!(view.len(), 1);
    /// ```
    #[inline]
    #[must_use]
    pub fn len(&self) -> usize {
        self.view().len()
    }

    /// Returns `true` if the table has no items, according to the header.
    ///
    /// ```
    /// # use odht::{configs::U64ToU32, HashTableOwned};
    /// # let table = HashTableOwned::<U64ToU32>::from([(1, 2)]);
    /// # let view = table.as_view();
    /// assert!(!view.is_empty());
    /// ```
    #[inline]
    #[must_use]
    pub fn is_empty(&self) -> bool {
        self.len() == 0
    }

    /// Returns the maximum number of items, by the slot count and load factor in the header.
    ///
    /// ```
    /// # use odht::{configs::U64ToU32, HashTableOwned};
    /// # let table = HashTableOwned::<U64ToU32>::from([(1, 2)]);
    /// # let view = table.as_view();
    /// assert_eq!(view.capacity(), 13); // of 16 slots 87 percent
    /// ```
    #[inline]
    #[must_use]
    pub fn capacity(&self) -> usize {
        let header = Header::of(self.bytes());
        max_item_count_for(header.slot_count(), header.max_load_factor())
    }

    /// Checks all of the bytes, like [`check_all`](crate::check_all), at the same cost.
    ///
    /// ```
    /// # use odht::{configs::U64ToU32, HashTableOwned};
    /// # let table = HashTableOwned::<U64ToU32>::from([(1, 2)]);
    /// # let view = table.as_view();
    /// assert_eq!(view.check_all(), Ok(()));
    /// ```
    ///
    /// # Errors
    ///
    /// The first error that [`check_all`](crate::check_all) finds.
    pub fn check_all(&self) -> Result<(), Error> {
        crate::check_all::<C>(self.bytes())
    }

    /// Returns `true` if all of the bytes are those of a valid table: if
    /// [`check_all`](HashTable::check_all) returns no error.
    ///
    /// ```
    /// # use odht::{configs::U64ToU32, HashTableOwned};
    /// # let table = HashTableOwned::<U64ToU32>::from([(1, 2)]);
    /// # let view = table.as_view();
    /// assert!(view.verify());
    /// ```
    #[must_use]
    pub fn verify(&self) -> bool {
        self.view().verify()
    }

    /// Like [`verify`](HashTable::verify), but in bounded time: use it for untrusted bytes. Like
    /// [`check_all_within`](crate::check_all_within), it also checks that searches are short. If it
    /// returns `true`, no search reads more than `groups` groups of sixteen control bytes, whether
    /// the key is present or absent.
    ///
    /// ```
    /// # use odht::{configs::U64ToU32, HashTableOwned, DEFAULT_GROUPS};
    /// # let table = HashTableOwned::<U64ToU32>::from([(1, 2)]);
    /// # let view = table.as_view();
    /// assert!(view.verify_within(DEFAULT_GROUPS));
    /// ```
    #[must_use]
    pub fn verify_within(&self, groups: usize) -> bool {
        self.view().verify_within(groups)
    }

    /// Returns `true` if all searches are short: if each home (the slot where a search begins) has
    /// a control byte that counts as free among the first `groups` groups of sixteen of its probe
    /// order. Then no search in a valid table reads more groups.
    ///
    /// Reads only control bytes.
    ///
    /// ```
    /// # use odht::{configs::U64ToU32, HashTableOwned};
    /// # let table = HashTableOwned::<U64ToU32>::from([(1, 2)]);
    /// # let view = table.as_view();
    /// assert!(view.searches_within(1));
    /// ```
    #[must_use]
    pub fn searches_within(&self, groups: usize) -> bool {
        self.view().searches_within(groups)
    }

    /// Returns the bytes of the table.
    ///
    /// ```
    /// # use odht::{configs::U64ToU32, HashTable, HashTableOwned};
    /// # let mut table = HashTableOwned::<U64ToU32>::default();
    /// # table.insert(&1, &2);
    /// # let view = HashTable::<U64ToU32, _>::try_from_raw_bytes(table.raw_bytes())?;
    /// assert_eq!(view.raw_bytes(), table.raw_bytes());
    /// # Ok::<(), odht::Error>(())
    /// ```
    #[inline]
    #[must_use]
    pub fn raw_bytes(&self) -> &[u8] {
        self.data.borrow()
    }

    /// Consumes the view, and returns the data that it was opened from.
    ///
    /// ```
    /// # use odht::{configs::U64ToU32, HashTable, HashTableOwned};
    /// # let mut table = HashTableOwned::<U64ToU32>::default();
    /// # table.insert(&1, &2);
    /// # let view = HashTable::<U64ToU32, _>::try_from_raw_bytes(table.raw_bytes())?;
    /// let bytes: &[u8] = view.into_data();
    /// assert_eq!(bytes, table.raw_bytes());
    /// # Ok::<(), odht::Error>(())
    /// ```
    #[inline]
    #[must_use]
    pub fn into_data(self) -> D {
        self.data
    }
}
