// Generated from crates/odht_raw/src/raw_table.rt by make generate.
//! The parts of a table, control bytes and entries, and searches, inserts and walks in them.
//!
//! A table is *placed* where no key is in two slots, and the search for each key ends at its slot.
//! "On the parts of a placed table" is `IsPartsOf` in a clause: control bytes, mirror and entries
//! are those of such a table.

use crate::generated::raw::bytes::ByteArray;
use crate::generated::raw::error::Error;
use crate::generated::raw::hash::HashFn;
use crate::generated::raw::layout::Fixed;
pub(crate) use crate::generated::raw::swisstable_group_query::is_empty_or_deleted;
use crate::generated::raw::swisstable_group_query::{Group, GroupQuery, REFERENCE_GROUP_SIZE};

mod bound;
mod check;
mod dump;
mod first_look;
mod group_search;
mod insert_order;
mod linear_order;
mod orders;
mod parts;
mod plain;
mod probe_seq;
mod read_search;
mod runs;
mod scan;
mod search_result;
mod slot_checks;
mod stored;
mod table_mut;
mod walk;
mod writes;

pub(crate) use bound::longer_refusal;
pub(crate) use check::{check_mirror, check_slots};
pub use first_look::FirstLook;
pub use group_search::{search, search_hashed};
pub use parts::{DynRawTable, Parts};
pub use plain::{plain_find, plain_insert};
pub use probe_seq::{probe_order, GroupProbe, ProbeSeq};
pub use read_search::{search_read, ReadPlace};
pub(crate) use runs::insert_run;
pub use scan::Scan;
pub use search_result::Search;
pub use stored::{Entries, Entry, ShortBytes, Stored};
pub use table_mut::RawTableMut;
pub use walk::{DynIter, DynSlots, PartPairs, PartSlots, RawIter, RawSlots};
pub use writes::write_new;
pub(crate) use writes::{is_found, write_at_end, write_slot};

/// A control byte: the tag of an occupied slot, which is below 128, or `FREE`.
pub type EntryMetadata = u8;

/// The control byte of a free slot.
pub const FREE: EntryMetadata = 255;

// How many low bits of a hash are not part of its tag.
const TAG_SHIFT: u32 = 25;

/// The tag of a key with this hash: the seven highest bits of the hash.
#[inline]
pub fn tag_of(hash: u32) -> u8 {
    (hash >> TAG_SHIFT) as u8
}

// How many slots have these control bytes, which end with their mirror.
#[inline(always)]
fn slot_count_of(control: &[EntryMetadata]) -> usize {
    control.len() - REFERENCE_GROUP_SIZE
}

/// The parts of a table, borrowed to be read: the control bytes with their mirror, and the entries
/// of as many slots.
pub struct RawTable<'a, K: ByteArray, V: ByteArray, H: HashFn> {
    parts: Parts<'a, Fixed<K, V>, H>,
}

impl<'a, K: ByteArray, V: ByteArray, H: HashFn> RawTable<'a, K, V, H> {
    /// The table of these parts. No control byte and no entry is checked.
    #[inline]
    pub fn new(control: &'a [EntryMetadata], entries: Entries<'a, K, V>) -> Self {
        RawTable { parts: Parts::of(control, entries.stored()) }
    }

    // The same parts, with keys and values as bytes.
    #[inline(always)]
    pub(crate) fn parts(&self) -> Parts<'a, Fixed<K, V>, H> {
        self.parts.copy()
    }

    // The entries.
    #[inline(always)]
    fn entries(&self) -> Entries<'a, K, V> {
        Entries::of(self.parts().stored())
    }

    /// The value stored with the key, searched for group by group along the probe order
    /// (docs/FORMAT.md, "Search").
    ///
    /// On the parts of a placed table it is the map's result. On any parts it is a value that is
    /// stored with an equal key. `find_counted` says how many groups that takes.
    #[inline(always)]
    pub fn find(&self, key: &K) -> Option<V> {
        let (value, _) = self.find_counted(key);
        value
    }

    /// `find`, and how many groups were read: on the parts of a placed table those up to the first
    /// slot that is free or holds the key, and on any parts at most all groups. How they are
    /// counted: docs/FORMAT.md, "Search".
    #[inline(always)]
    pub fn find_counted(&self, key: &K) -> (Option<V>, usize) {
        self.find_counted_by::<GroupQuery>(key)
    }

    /// `find_counted` by a group search of the caller's choice. On the parts of a placed table all
    /// searches give the same.
    #[inline(always)]
    pub fn find_counted_by<Q: Group>(&self, key: &K) -> (Option<V>, usize) {
        match self.parts().find_of::<Q>(key.as_slice()) {
            (Some(value), groups) => (Some(V::from_slice(value)), groups),
            (None, groups) => (None, groups),
        }
    }

    /// The control byte and the entry of each slot whose own control byte does not count as free,
    /// in slot order.
    #[inline]
    pub fn iter(&self) -> RawIter<'a, K, V> {
        RawIter::new(self.parts().controls(), self.entries())
    }

    /// Checks the first `slots_to_check` slots, or all where there are fewer, and returns the
    /// first error: `NonZeroEmpty` of a slot that counts as free, `ControlMismatch` of any other.
    ///
    /// A mismatch can mean that the bytes were written with another hash function.
    #[inline(always)]
    pub fn sanity_check_hashes(&self, slots_to_check: usize) -> Result<(), Error> {
        self.parts().sanity_check_hashes(slots_to_check)
    }
}
