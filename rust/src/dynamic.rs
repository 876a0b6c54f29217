//! Dynamic tables: the lengths of keys and values are known only at run time, for example from a
//! file.
//!
//! A [`Config`] fixes the lengths of keys and values at compile time. A [`DynTable`] takes them as
//! numbers, in a [`Layout`]. It reads and writes the same format for any lengths, and its keys and
//! values are the stored bytes. The hash function is still a type parameter, since the bytes do not
//! record it.
//!
//! ```
//! use odht::dynamic::{DynTable, Layout};
//! use odht::{configs::U64ToU32, FxHashFn, HashTableOwned};
//!
//! let mut table = HashTableOwned::<U64ToU32>::default();
//! table.insert(&1, &2);
//! let view = DynTable::<FxHashFn, _>::open_as_stated(table.raw_bytes())?;
//! assert_eq!(view.layout(), Layout { key_len: 8, value_len: 4 });
//! assert_eq!(view.get(&1_u64.to_le_bytes()), Some(&2_u32.to_le_bytes()[..]));
//! assert_eq!(view.get(b"another length"), None);
//!
//! let mut copy = DynTable::<FxHashFn, _>::open_as_stated(table.raw_bytes().to_vec())?;
//! assert_eq!(copy.insert(&3_u64.to_le_bytes(), &4_u32.to_le_bytes())?, None);
//! assert_eq!(copy.len(), 2);
//! # Ok::<(), odht::dynamic::DynError>(())
//! ```

mod file;
mod growth;
mod lists;
mod orders;
mod owned;
mod prefix;
mod short_bytes;
mod writing;

pub use file::{FileError, FileTable, ReadAt, ReadError};
pub use owned::DynTableOwned;
pub use short_bytes::ShortBytes;

use crate::config::{Config, Hash, HashFn};
use crate::generated::base::bytes::{Borrowed, ByteArray};
use crate::generated::header::error::Error;
use crate::generated::header::layout;
use crate::generated::raw::memory_layout::{
    check_dynamic, check_dynamic_within, dynamic_parts, Header,
};
use crate::generated::raw::raw_table::DynRawTable;
use crate::generated::tables::dynamic;
use crate::opened::Opened;
use std::borrow::Borrow;
use std::fmt;
use std::iter::FusedIterator;
use std::marker::PhantomData;

pub use crate::generated::tables::dynamic::DynError;

impl fmt::Display for DynError {
    fn fmt(&self, f: &mut fmt::Formatter<'_>) -> fmt::Result {
        match self {
            DynError::KeyTooShort { key_len, least } => {
                write!(f, "keys have {key_len} bytes, and the hash function needs {least}")
            }
            DynError::WrongKeyLength { expected, found } => {
                write!(f, "the key has {found} bytes, and those of the table have {expected}")
            }
            DynError::WrongValueLength { expected, found } => {
                write!(f, "the value has {found} bytes, and those of the table have {expected}")
            }
            DynError::Rejected(error) => error.fmt(f),
        }
    }
}

impl std::error::Error for DynError {}

/// The lengths of encoded keys and values.
#[derive(Clone, Copy, PartialEq, Eq, Hash, Debug)]
pub struct Layout {
    /// The length of an encoded key, in bytes.
    pub key_len: u8,
    /// The length of an encoded value, in bytes.
    pub value_len: u8,
}

impl Layout {
    /// Returns the lengths of a configuration's encoded keys and values.
    ///
    /// ```
    /// use odht::{configs::U64ToU32, dynamic::Layout};
    ///
    /// assert_eq!(Layout::of::<U64ToU32>(), Layout { key_len: 8, value_len: 4 });
    /// ```
    #[must_use]
    pub fn of<C: Config>() -> Self {
        let () = crate::config::Proved::<C>::FITS;
        Layout {
            key_len: <C::EncodedKey as ByteArray>::LEN as u8,
            value_len: <C::EncodedValue as ByteArray>::LEN as u8,
        }
    }

    // The same lengths, as the type of the proved library.
    fn proved(self) -> layout::Layout {
        layout::Layout { key_len: self.key_len, value_len: self.value_len }
    }
}

/// A view of a table in bytes that you provide. The lengths of keys and values are given when it is
/// opened. A view cannot grow; [`DynTableOwned`] can.
///
/// The bytes may be a slice, a vector, or anything else that implements `Borrow<[u8]>`. If the type
/// also implements `BorrowMut<[u8]>`, pairs can be inserted. [`BytesOf`](crate::BytesOf) wraps
/// types that have only `AsRef<[u8]>`, such as a mapped file. Any number of threads may read a
/// table.
///
/// # Panics
///
/// Every call that reads or writes the table panics if `D` returns bytes whose length or slot count
/// differs from that of the bytes that were opened.
///
/// # Mapped files
///
/// If another process rewrites a mapped file, calls may panic or return wrong results; they read and write only the
/// mapped bytes. If it truncates the file, a call faults, as it does for every `&[u8]` of a mapped file.
pub struct DynTable<H: HashFn, D: Borrow<[u8]>> {
    data: D,
    layout: Layout,
    opened: Opened,
    hash: PhantomData<fn() -> H>,
}

impl<H: HashFn, D: Borrow<[u8]>> DynTable<H, D> {
    /// Opens bytes as a table with these key and value lengths. Like
    /// [`try_from_raw_bytes`](crate::HashTable::try_from_raw_bytes), it checks the header, the
    /// length and the first ten slots, in constant time.
    ///
    /// ```
    /// use odht::dynamic::{DynError, DynTable, Layout};
    /// use odht::{configs::U64ToU32, Error, HashTableOwned, UnHashFn};
    ///
    /// let bytes = HashTableOwned::<U64ToU32>::default().raw_bytes().to_vec();
    /// let open = |key_len, value_len| {
    ///     let layout = Layout { key_len, value_len };
    ///     DynTable::<UnHashFn, _>::open(layout, &bytes[..]).err()
    /// };
    /// assert_eq!(open(8, 4), None);
    /// assert_eq!(open(3, 9), Some(DynError::KeyTooShort { key_len: 3, least: 4 }));
    /// assert!(matches!(open(4, 8), Some(DynError::Rejected(Error::WrongSizeOf { .. }))));
    /// ```
    ///
    /// # Errors
    ///
    /// Returns the first of these errors that applies:
    ///
    /// - `KeyTooShort` if the hash function needs longer keys
    /// - `Rejected` with the error that `try_from_raw_bytes` would return
    pub fn open(layout: Layout, data: D) -> Result<Self, DynError> {
        let bytes = data.borrow();
        dynamic::DynTable::<Hash<H>, _>::open(layout.proved(), Borrowed::new(bytes))?;
        let opened = Opened::of(bytes, layout.proved());
        Ok(DynTable { data, layout, opened, hash: PhantomData })
    }

    /// Like [`open`](DynTable::open), with the key and value lengths that the header states.
    /// [`layout`](DynTable::layout) returns them.
    ///
    /// # Errors
    ///
    /// Returns the first of these errors that applies:
    ///
    /// - `Rejected` if there are too few bytes, or the header or the length is wrong
    /// - `KeyTooShort` if the hash function needs longer keys
    /// - `Rejected` if one of the first ten slots is wrong
    ///
    /// The header does not record the hash function. A table that was built with another one is
    /// rejected if the tag of an occupied slot among the first ten does not match.
    pub fn open_as_stated(data: D) -> Result<Self, DynError> {
        let bytes = data.borrow();
        let table = dynamic::DynTable::<Hash<H>, _>::open_as_stated(Borrowed::new(bytes))?;
        let layout::Layout { key_len, value_len } = table.layout();
        let opened = Opened::of(bytes, table.layout());
        Ok(DynTable { data, layout: Layout { key_len, value_len }, opened, hash: PhantomData })
    }

    // The bytes. Panics if their length or slot count has changed.
    #[inline(always)]
    fn bytes(&self) -> &[u8] {
        let bytes = self.data.borrow();
        self.opened.check(bytes, self.layout.proved());
        bytes
    }

    // The proved table of the bytes.
    #[inline(always)]
    fn view(&self) -> dynamic::DynTable<Hash<H>, Borrowed<'_>> {
        let store = Borrowed::new(self.bytes());
        dynamic::DynTable::open_unchecked(self.layout.proved(), store)
    }

    // The proved parts of the table. Opening has checked that the header fits.
    #[inline(always)]
    fn parts(&self) -> DynRawTable<'_, Hash<H>> {
        dynamic_parts(self.bytes(), self.layout.proved())
    }

    /// Returns the lengths of keys and values.
    #[inline]
    #[must_use]
    pub fn layout(&self) -> Layout {
        self.layout
    }

    /// Returns the value that the last insert of the key stored, or `None`. A key of another length
    /// has no value.
    ///
    /// Reads each group of sixteen control bytes at most once.
    #[inline]
    #[must_use]
    pub fn get(&self, key: &[u8]) -> Option<&[u8]> {
        if key.len() != usize::from(self.layout.key_len) {
            return None;
        }
        self.parts().find(key)
    }

    /// Like [`get`](DynTable::get), and also returns how many groups of sixteen control bytes it
    /// read. In a valid table, these are the groups up to the first slot that is free or contains
    /// the key. For a key of another length it reads none.
    #[inline]
    #[must_use]
    pub fn get_counted(&self, key: &[u8]) -> (Option<&[u8]>, usize) {
        if key.len() != usize::from(self.layout.key_len) {
            return (None, 0);
        }
        self.parts().find_counted(key)
    }

    /// Returns `true` if the key has a value.
    #[inline]
    #[must_use]
    pub fn contains_key(&self, key: &[u8]) -> bool {
        self.get(key).is_some()
    }

    /// Returns an iterator over the keys and values, in slot order.
    ///
    /// ```
    /// # use odht::{configs::U64ToU32, dynamic::DynTable, FxHashFn, HashTableOwned};
    /// # let mut table = HashTableOwned::<U64ToU32>::default();
    /// # table.insert(&1, &2);
    /// let view = DynTable::<FxHashFn, _>::open_as_stated(table.raw_bytes())?;
    /// for (key, value) in view.iter() {
    ///     assert_eq!((key, value), (&[1, 0, 0, 0, 0, 0, 0, 0][..], &[2, 0, 0, 0][..]));
    /// }
    /// # Ok::<(), odht::dynamic::DynError>(())
    /// ```
    pub fn iter(&self) -> impl FusedIterator<Item = (&[u8], &[u8])> {
        self.parts().iter()
    }

    /// Returns an iterator over the pairs in the slots from `from` on, in slot order. Each item is
    /// the index of a slot, with its key and value. If `from` is past the last slot, the iterator
    /// is empty.
    pub fn iter_from(&self, from: usize) -> impl FusedIterator<Item = (usize, (&[u8], &[u8]))> {
        self.parts().iter_from(from)
    }

    /// Returns the number of items, as the header states it.
    #[inline]
    #[must_use]
    pub fn len(&self) -> usize {
        Header::of(self.bytes()).item_count()
    }

    /// Returns `true` if the table has no items, according to the header.
    #[inline]
    #[must_use]
    pub fn is_empty(&self) -> bool {
        self.len() == 0
    }

    /// Checks what opening does not check: whether all of the bytes are those of a valid table. It
    /// costs what [`check_all`](crate::check_all) costs.
    ///
    /// # Errors
    ///
    /// Returns the first error that `check_all` finds after the checks of opening.
    pub fn check_rest(&self) -> Result<(), Error> {
        check_dynamic::<Hash<H>>(self.bytes(), self.layout.proved())
    }

    /// Returns `true` if all of the bytes are those of a valid table: if
    /// [`check_rest`](DynTable::check_rest) returns no error.
    ///
    /// ```
    /// # use odht::{configs::U64ToU32, dynamic::DynTable, FxHashFn, HashTableOwned};
    /// # let table = HashTableOwned::<U64ToU32>::default();
    /// let view = DynTable::<FxHashFn, _>::open_as_stated(table.raw_bytes())?;
    /// assert!(view.verify());
    /// # Ok::<(), odht::dynamic::DynError>(())
    /// ```
    #[must_use]
    pub fn verify(&self) -> bool {
        self.check_rest().is_ok()
    }

    /// Like [`check_rest`](DynTable::check_rest), but in bounded time: use it for untrusted bytes.
    /// It also checks that searches are short. Each home, the slot where a search begins, must have
    /// a control byte that counts as free among the first `groups` groups of sixteen of its probe
    /// order. If there is no error, no search reads more groups, whether the key is present or
    /// absent.
    ///
    /// # Errors
    ///
    /// Returns the first error that [`check_all_within`](crate::check_all_within) finds after the
    /// checks of opening.
    pub fn check_rest_within(&self, groups: usize) -> Result<(), Error> {
        check_dynamic_within::<Hash<H>>(self.bytes(), self.layout.proved(), groups)
    }

    /// Like [`verify`](DynTable::verify), for untrusted bytes: returns `true` if
    /// [`check_rest_within`](DynTable::check_rest_within) returns no error.
    ///
    /// ```
    /// # use odht::{configs::U64ToU32, dynamic::DynTable, FxHashFn, HashTableOwned, DEFAULT_GROUPS};
    /// # let table = HashTableOwned::<U64ToU32>::default();
    /// let view = DynTable::<FxHashFn, _>::open_as_stated(table.raw_bytes())?;
    /// assert!(view.verify_within(DEFAULT_GROUPS));
    /// # Ok::<(), odht::dynamic::DynError>(())
    /// ```
    #[must_use]
    pub fn verify_within(&self, groups: usize) -> bool {
        self.check_rest_within(groups).is_ok()
    }

    /// Returns `true` if all searches are short: if each home (the slot where a search begins) has
    /// a control byte that counts as free among the first `groups` groups of sixteen of its probe
    /// order. Then no search in a valid table reads more groups.
    ///
    /// Reads only control bytes.
    #[must_use]
    pub fn searches_within(&self, groups: usize) -> bool {
        self.parts().searches_within(groups)
    }

    /// Returns all bytes of the table.
    #[inline]
    #[must_use]
    pub fn raw_bytes(&self) -> &[u8] {
        self.bytes()
    }

    /// Consumes the view, and returns the data that it was opened from.
    #[inline]
    #[must_use]
    pub fn into_data(self) -> D {
        self.data
    }
}

impl<H: HashFn, D: Borrow<[u8]>> fmt::Debug for DynTable<H, D> {
    fn fmt(&self, f: &mut fmt::Formatter<'_>) -> fmt::Result {
        f.debug_map().entries(self.iter()).finish()
    }
}
