// Generated from crates/odht_raw/src/raw_table/parts.rt by make generate.
//! The parts of a table, borrowed to be read. The lengths of keys and values are types or numbers.

use super::group_search::search_stored;
use super::{tag_of, EntryMetadata, PartPairs, PartSlots, Scan, Search, ShortBytes, Stored};
use crate::generated::raw::bytes::ByteArray;
use crate::generated::raw::hash::HashFn;
use crate::generated::raw::layout::{Fixed, Layout, Lengths};
use crate::generated::raw::swisstable_group_query::{Group, GroupQuery};
use std::marker::PhantomData;

/// The parts of a table, borrowed to be read: the control bytes with their mirror, and the entries
/// of as many slots. Keys and values are bytes of the right length.
///
/// The searches, the walks and the checks of all tables are those of `Parts`. [`RawTable`] is the
/// same parts with keys and values as types, and [`DynRawTable`] with lengths that are numbers.
///
/// In a contract it is the lengths of keys and values, and the parts.
///
/// [`RawTable`]: super::RawTable
pub struct Parts<'a, L: Lengths, H: HashFn> {
    control: &'a [EntryMetadata],
    pub(super) stored: Stored<'a, L>,
    hash: PhantomData<H>,
}

/// The parts of a table whose lengths of keys and values are numbers.
pub type DynRawTable<'a, H> = Parts<'a, Layout, H>;

impl<'a, H: HashFn> Parts<'a, Layout, H> {
    /// The table of these parts. No control byte and no entry is checked.
    #[inline(always)]
    pub fn new(
        control: &'a [EntryMetadata],
        entries: &'a [u8],
        slots: usize,
        layout: Layout,
    ) -> Self {
        Parts::of(control, Stored::new(entries, slots, layout))
    }

    /// The lengths of keys and values.
    #[inline(always)]
    pub fn layout(&self) -> Layout {
        self.stored.lengths()
    }
}

impl<'a, L: Lengths, H: HashFn> Parts<'a, L, H> {
    /// The table of these control bytes and entries. Nothing is checked.
    #[inline(always)]
    pub fn of(control: &'a [EntryMetadata], stored: Stored<'a, L>) -> Self {
        Parts { control, stored, hash: PhantomData }
    }

    // A second reader of the same parts.
    #[inline(always)]
    pub(super) fn copy(&self) -> Self {
        Parts { control: self.control, stored: self.stored.copy(), hash: PhantomData }
    }

    /// The entries.
    #[inline(always)]
    pub fn stored(&self) -> Stored<'a, L> {
        self.stored.copy()
    }

    /// The slots from slot `from` on whose own control byte does not count as free, in slot order,
    /// each with its key and its value. Nothing where `from` is past the last slot.
    pub fn iter_from(&self, from: usize) -> PartSlots<'a, L, H> {
        PartSlots::new(self.copy(), from)
    }

    /// The key and the value of each slot whose own control byte does not count as free, in slot
    /// order.
    pub fn iter(&self) -> PartPairs<'a, L, H> {
        PartPairs::new(self.copy())
    }

    /// The control bytes with their mirror.
    #[inline(always)]
    pub fn controls(&self) -> &'a [EntryMetadata] {
        self.control
    }

    /// How many slots there are.
    #[inline(always)]
    pub fn len(&self) -> usize {
        self.stored.slots()
    }

    /// The control byte of a slot, or for an index from the slot count on of its mirror.
    #[inline(always)]
    pub fn control(&self, index: usize) -> EntryMetadata {
        self.control[index]
    }

    /// The entry of a slot: key, then value.
    #[inline(always)]
    pub fn entry(&self, slot: usize) -> &'a [u8] {
        self.stored.entry(slot)
    }

    /// The key of a slot.
    #[inline(always)]
    pub fn key(&self, slot: usize) -> &'a [u8] {
        self.stored.key(slot)
    }

    /// The value of a slot.
    #[inline(always)]
    pub fn value(&self, slot: usize) -> &'a [u8] {
        self.stored.value(slot)
    }

    /// Whether the entry of a slot has this key, which is as long as the keys are.
    #[inline(always)]
    pub(super) fn has_key(&self, slot: usize, key: &[u8]) -> bool {
        self.stored.has_key(slot, key)
    }

    /// The value stored with the key, searched for group by group along the probe order
    /// (docs/FORMAT.md, "Search").
    ///
    /// On the parts of a placed table it is the map's result. On any parts it is a value that is
    /// stored with an equal key. `find_counted` says how many groups that takes.
    #[inline(always)]
    pub fn find(&self, key: &[u8]) -> Option<&'a [u8]> {
        let (value, _) = self.find_counted(key);
        value
    }

    /// `find`, and how many groups were read: on the parts of a placed table those up to the first
    /// slot that is free or holds the key, and on any parts at most all groups. How they are
    /// counted: docs/FORMAT.md, "Search".
    #[inline(always)]
    pub fn find_counted(&self, key: &[u8]) -> (Option<&'a [u8]>, usize) {
        match key.len() {
            4 => self.find_of::<GroupQuery>(&key[..4]),
            8 => self.find_of::<GroupQuery>(&key[..8]),
            16 => self.find_of::<GroupQuery>(&key[..16]),
            20 => self.find_of::<GroupQuery>(&key[..20]),
            32 => self.find_of::<GroupQuery>(&key[..32]),
            _ => self.find_of::<GroupQuery>(key),
        }
    }

    /// `find_counted` by a group search of the caller's choice. It is inlined where the compiler
    /// knows the length of the key, and so hashes and compares it with no loop.
    #[inline(always)]
    pub(super) fn find_of<Q: Group>(&self, key: &[u8]) -> (Option<&'a [u8]>, usize) {
        let mut scan = Scan::new(self.controls(), self.len());
        let stored = self.stored();
        let end = search_stored::<L, H, Q>(&mut scan, &stored, key, H::hash(key));
        let groups = scan.groups();
        match end {
            Search::Found(slot) => (Some(self.value(slot)), groups),
            Search::Free(_) => (None, groups),
            Search::Neither => (None, groups),
        }
    }

    /// Where the search for a key that is inserted ends, and the key's tag, by a group search of the
    /// caller's choice. It is inlined where the compiler knows the length of the key, as `find_of`
    /// is.
    #[inline(always)]
    pub(crate) fn search_end<Q: Group>(&self, key: &[u8]) -> (Search, u8) {
        let mut scan = Scan::new(self.controls(), self.len());
        let stored = self.stored();
        let hash = H::hash(key);
        let end = search_stored::<L, H, Q>(&mut scan, &stored, key, hash);
        (end, tag_of(hash))
    }

    /// The value of the slot where the search for a key ended, if that slot holds the key.
    #[inline(always)]
    pub(crate) fn value_at(&self, end: Search) -> Option<&'a [u8]> {
        match end {
            Search::Found(slot) => Some(self.value(slot)),
            Search::Free(_) => None,
            Search::Neither => None,
        }
    }

    /// Where the search for a key that is inserted ends, and the key's tag. Keys of some lengths
    /// have a copy of the search each, as in [`Parts::find_counted`].
    #[inline(always)]
    pub(crate) fn insert_end(&self, key: &[u8]) -> (Search, u8) {
        match key.len() {
            4 => self.search_end::<GroupQuery>(&key[..4]),
            8 => self.search_end::<GroupQuery>(&key[..8]),
            16 => self.search_end::<GroupQuery>(&key[..16]),
            20 => self.search_end::<GroupQuery>(&key[..20]),
            32 => self.search_end::<GroupQuery>(&key[..32]),
            _ => self.search_end::<GroupQuery>(key),
        }
    }

    /// Copies the value of the key that an insert searched for to `to`, where the search found it.
    /// Returns whether it did.
    #[inline(always)]
    pub(crate) fn copy_value_at(&self, end: Search, to: &mut [u8]) -> bool {
        match self.value_at(end) {
            Some(value) => {
                to.copy_from_slice(value);
                true
            }
            None => false,
        }
    }

    /// The value of the key that an insert searched for, by value, where the search found it.
    #[inline(always)]
    pub(crate) fn short_value_at(&self, end: Search) -> Option<ShortBytes> {
        // For the prover: a value has at most 255 bytes.
        let _ = self.len();
        match self.value_at(end) {
            Some(value) => Some(ShortBytes::of(value)),
            None => None,
        }
    }
}

/// The parts of a table that is written, to be read.
#[inline(always)]
pub(super) fn read_parts<'a, L: Lengths, H: HashFn>(
    control: &'a [EntryMetadata],
    entries: &'a [u8],
    slots: usize,
    lengths: L,
) -> Parts<'a, L, H> {
    Parts::of(control, Stored::new(entries, slots, lengths))
}

impl<'a, K: ByteArray, V: ByteArray, H: HashFn> Parts<'a, Fixed<K, V>, H> {
    /// The value of the key that an insert searched for, where the search found it.
    #[inline(always)]
    pub(crate) fn typed_value_at(&self, end: Search) -> Option<V> {
        match self.value_at(end) {
            Some(value) => Some(V::from_slice(value)),
            None => None,
        }
    }
}
