//! A table at the front of longer bytes.

use super::{DynError, DynTable, Layout};
use crate::config::{Hash, HashFn};
use crate::generated::base::bytes::Borrowed;
use crate::generated::header::error::Error;
use crate::generated::header::layout;
use crate::generated::tables::dynamic;
use crate::opened::Opened;
use std::marker::PhantomData;

impl Layout {
    /// Returns the length of the table at the front of `bytes`, as its header states it. It works
    /// like [`table_len`](crate::table_len), for these key and value lengths. It reads only the
    /// header, in constant time.
    ///
    /// ```
    /// # use odht::{configs::U64ToU32, dynamic::Layout, HashTableOwned};
    /// let table = HashTableOwned::<U64ToU32>::default();
    /// let file = [table.raw_bytes(), b"and more"].concat();
    /// let layout = Layout { key_len: 8, value_len: 4 };
    /// assert_eq!(layout.table_len(&file), Ok(table.raw_bytes().len()));
    /// ```
    ///
    /// # Errors
    ///
    /// Those of [`table_len`](crate::table_len).
    pub fn table_len(self, bytes: &[u8]) -> Result<usize, Error> {
        dynamic::table_len(self.proved(), bytes)
    }
}

impl<'b, H: HashFn> DynTable<H, &'b [u8]> {
    /// Opens the table at the front of `bytes`, with these key and value lengths, and returns it
    /// with the bytes that follow it. The header states the length of the table, as in
    /// [`Layout::table_len`]. The bytes that follow are not read. Takes constant time.
    ///
    /// ```
    /// use odht::dynamic::{DynError, DynTable, Layout};
    /// use odht::{configs::U64ToU32, FxHashFn, HashTableOwned};
    ///
    /// let mut table = HashTableOwned::<U64ToU32>::default();
    /// table.insert(&1, &2);
    /// let file = [table.raw_bytes(), b"and more"].concat();
    ///
    /// let layout = Layout { key_len: 8, value_len: 4 };
    /// let (view, rest) = DynTable::<FxHashFn, _>::open_prefix(layout, &file)?;
    /// assert_eq!(view.get(&1_u64.to_le_bytes()), Some(&2_u32.to_le_bytes()[..]));
    /// assert_eq!(rest, b"and more");
    /// # Ok::<(), DynError>(())
    /// ```
    ///
    /// # Errors
    ///
    /// Returns the first of these errors that applies:
    ///
    /// - `KeyTooShort` if the hash function needs longer keys
    /// - `Rejected` with the error of [`Layout::table_len`]
    /// - `Rejected` if one of the first ten slots is wrong
    pub fn open_prefix(layout: Layout, bytes: &'b [u8]) -> Result<(Self, &'b [u8]), DynError> {
        let found =
            dynamic::DynTable::<Hash<H>, Borrowed<'b>>::from_prefix(layout.proved(), bytes)?;
        Ok(opened_front(found))
    }

    /// Like [`open_prefix`](DynTable::open_prefix), with the key and value lengths that the header
    /// states. [`layout`](DynTable::layout) returns them.
    ///
    /// ```
    /// # use odht::{configs::U64ToU32, dynamic::DynTable, FxHashFn, HashTableOwned};
    /// # let table = HashTableOwned::<U64ToU32>::default();
    /// let file = [table.raw_bytes(), b"and more"].concat();
    /// let (view, rest) = DynTable::<FxHashFn, _>::open_prefix_as_stated(&file)?;
    /// assert_eq!((view.layout().key_len, rest), (8, &b"and more"[..]));
    /// # Ok::<(), odht::dynamic::DynError>(())
    /// ```
    ///
    /// # Errors
    ///
    /// Returns the first of these errors that applies:
    ///
    /// - `Rejected` with the error of [`Layout::table_len`]
    /// - `KeyTooShort` if the hash function needs longer keys
    /// - `Rejected` if one of the first ten slots is wrong
    ///
    /// The header does not record the hash function. A table that was built with another one is
    /// rejected if the tag of an occupied slot among the first ten does not match.
    pub fn open_prefix_as_stated(bytes: &'b [u8]) -> Result<(Self, &'b [u8]), DynError> {
        let found = dynamic::DynTable::<Hash<H>, Borrowed<'b>>::from_prefix_as_stated(bytes)?;
        Ok(opened_front(found))
    }
}

// Converts a table of the proved library, and passes on the bytes that follow it.
fn opened_front<'b, H: HashFn>(
    (table, rest): (dynamic::DynTable<Hash<H>, Borrowed<'b>>, &'b [u8]),
) -> (DynTable<H, &'b [u8]>, &'b [u8]) {
    let proved = table.layout();
    let layout::Layout { key_len, value_len } = proved;
    let Borrowed(data) = table.into_data();
    let opened = Opened::of(data, proved);
    let layout = Layout { key_len, value_len };
    (DynTable { data, layout, opened, hash: PhantomData }, rest)
}
