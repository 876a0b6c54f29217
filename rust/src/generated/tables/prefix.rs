// Generated from crates/odht/src/prefix.rt by make generate.
//! A table at the front of longer bytes.

use crate::generated::tables::bytes::Borrowed;
use crate::generated::tables::config::Config;
use crate::generated::tables::dynamic::{check_key_len, stated_layout, DynError, DynTable};
use crate::generated::tables::error::Error;
use crate::generated::tables::hash::HashFn;
use crate::generated::tables::hash_table::HashTable;
use crate::generated::tables::layout::Layout;
use crate::generated::tables::memory_layout::{self, dynamic_table_len};

/// How many bytes the table of these lengths at the front of `bytes` has, by its header. What
/// follows is not looked at, nor is any slot, and the hash function does not matter.
///
/// The first error: as [`memory_layout::table_len`] returns it. Constant time.
pub fn table_len(layout: Layout, bytes: &[u8]) -> Result<usize, Error> {
    dynamic_table_len(bytes, layout)
}

impl<'a, C: Config> HashTable<C, Borrowed<'a>> {
    /// Opens the table at the front of `bytes`, and returns it with the bytes behind it, which are
    /// not looked at. How many bytes are the table's its header says, as
    /// [`memory_layout::table_len`].
    ///
    /// Or the first error: those of that call, then those of the first ten slots, as
    /// [`HashTable::from_raw_bytes`]. Valid bytes with anything behind them are always opened.
    /// Constant time.
    #[inline]
    pub fn from_prefix(bytes: &'a [u8]) -> Result<(Self, &'a [u8]), Error> {
        let len = memory_layout::table_len::<C>(bytes)?;
        let (front, rest) = bytes.split_at(len);
        let table = HashTable::from_raw_bytes(Borrowed::new(front))?;
        Ok((table, rest))
    }
}

impl<'a, H: HashFn> DynTable<H, Borrowed<'a>> {
    /// Like [`HashTable::from_prefix`], with these lengths. The first error is `KeyTooShort` if the
    /// hash function needs longer keys. Otherwise it is `Rejected` with the error of that call.
    pub fn from_prefix(layout: Layout, bytes: &'a [u8]) -> Result<(Self, &'a [u8]), DynError> {
        check_key_len::<H>(layout)?;
        match table_len(layout, bytes) {
            Ok(len) => DynTable::open_front(layout, bytes, len),
            Err(rejected) => Err(DynError::Rejected(rejected)),
        }
    }

    /// [`DynTable::from_prefix`] with the lengths that the header states; [`DynTable::layout`]
    /// tells them.
    ///
    /// The first error: `Rejected` with those of [`table_len`]; then `KeyTooShort`; then
    /// `Rejected` with that of the first ten slots. A header states no hash function: a table of
    /// another one is rejected where one of the first ten slots is occupied and has another tag.
    pub fn from_prefix_as_stated(bytes: &'a [u8]) -> Result<(Self, &'a [u8]), DynError> {
        let layout = stated_layout(bytes)?;
        match table_len(layout, bytes) {
            Ok(len) => DynTable::open_front(layout, bytes, len),
            Err(rejected) => Err(DynError::Rejected(rejected)),
        }
    }

    // Opens the table that ends at an index, and returns it with the bytes behind it.
    fn open_front(
        layout: Layout,
        bytes: &'a [u8],
        end: usize,
    ) -> Result<(Self, &'a [u8]), DynError> {
        let (front, rest) = bytes.split_at(end);
        let table = DynTable::open(layout, Borrowed::new(front))?;
        Ok((table, rest))
    }
}
