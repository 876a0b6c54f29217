// Generated from crates/odht_raw/src/raw_table/table_mut.rt by make generate.
//! The parts of a table, borrowed to be written.

use super::parts::read_parts;
use super::writes::{insert_at, write_new};
use super::{slot_count_of, Entries, EntryMetadata, RawTable};
use crate::generated::raw::bytes::ByteArray;
use crate::generated::raw::error::Error;
use crate::generated::raw::hash::HashFn;
use crate::generated::raw::layout::Fixed;
use crate::generated::raw::swisstable_group_query::{Group, GroupQuery};
use std::fmt;
use std::marker::PhantomData;

/// The parts of a table, borrowed to be written: the control bytes with their mirror, and the
/// bytes of as many entries.
///
/// After the borrow both slices hold what the inserts left in them.
pub struct RawTableMut<'c, 'e, K: ByteArray, V: ByteArray, H: HashFn> {
    control: &'c mut [EntryMetadata],
    entries: &'e mut [u8],
    types: PhantomData<(K, V, H)>,
}

impl<'c, 'e, K: ByteArray, V: ByteArray, H: HashFn> RawTableMut<'c, 'e, K, V, H> {
    /// The table of these parts. No control byte and no entry is checked or written.
    #[inline]
    pub fn new(control: &'c mut [EntryMetadata], entries: &'e mut [u8]) -> Self {
        RawTableMut { control, entries, types: PhantomData }
    }

    /// Inserts a pair like `plain_insert`, and returns the former value of the key. It overwrites
    /// the value that is stored with the key, or writes the pair into the first free slot of the
    /// key's probe order.
    ///
    /// On the parts of a placed table it leaves the parts of the table with the pair placed. It
    /// returns `Full`, with nothing changed, exactly if each slot is occupied and none has the key.
    ///
    /// On any parts it overwrites one value that is stored with an equal key, or writes one entry
    /// and its tag into a slot that counted as free. No other byte changes. It returns `Full` only
    /// if each slot counts as occupied and a search slot by slot can end without the key.
    #[inline(always)]
    pub fn insert(&mut self, key: K, value: V) -> Result<Option<V>, Error> {
        self.insert_by::<GroupQuery>(key, value)
    }

    /// Like `insert`, by a group search of the caller's choice. On the parts of a placed table all
    /// group searches leave the same parts.
    #[inline(always)]
    pub fn insert_by<Q: Group>(&mut self, key: K, value: V) -> Result<Option<V>, Error> {
        let lengths: Fixed<K, V> = Fixed::new();
        let (key, value) = (key.as_slice(), value.as_slice());
        let (control, entries) = (&mut *self.control, &mut *self.entries);
        let slots = slot_count_of(control);
        let parts = read_parts::<Fixed<K, V>, H>(&*control, &*entries, slots, lengths);
        let end = parts.search_end::<Q>(key);
        let former = parts.typed_value_at(end.0);
        insert_at::<Fixed<K, V>, H, V>(control, entries, lengths, key, value, end, former)
    }

    /// Writes the pair into the first free slot of its key's probe order. No key is compared, so
    /// it is for a key that the table does not have.
    ///
    /// On the parts of a placed table that does not have this key it leaves the parts of the table
    /// with the pair placed, and returns `Full`, with nothing changed, exactly where each slot is
    /// occupied. On any parts the entry is written with its tag into the first slot of the order
    /// that counted as free, and no other byte changes; `Full` is returned only where each slot
    /// counts as occupied.
    #[inline(always)]
    pub fn place(&mut self, key: K, value: V) -> Result<(), Error> {
        self.place_by::<GroupQuery>(key, value)
    }

    /// `place` by a group search of the caller's choice. On the parts of a placed table all
    /// searches leave the same parts.
    #[inline(always)]
    pub fn place_by<Q: Group>(&mut self, key: K, value: V) -> Result<(), Error> {
        let lengths: Fixed<K, V> = Fixed::new();
        let (key, value) = (key.as_slice(), value.as_slice());
        write_new::<Fixed<K, V>, H, Q>(self.control, self.entries, lengths, key, value)
    }
}

impl<'c, 'e, K: ByteArray, V: ByteArray, H: HashFn> fmt::Debug for RawTableMut<'c, 'e, K, V, H> {
    // The same text as that of the `RawTable` of these parts.
    fn fmt(&self, f: &mut fmt::Formatter<'_>) -> fmt::Result {
        let slots = slot_count_of(self.control);
        let entries = Entries::new(self.entries, slots);
        let table: RawTable<'_, K, V, H> = RawTable::new(self.control, entries);
        write!(f, "{table:?}")
    }
}
