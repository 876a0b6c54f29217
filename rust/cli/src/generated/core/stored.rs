// Generated from crates/odht_tool_core/src/stored.rt by make generate.
//! The bytes of a table of any key and value sizes.

use crate::generated::base::hash::{FxHashFn, HashFn, UnHashFn, Xxh64HashFn};
use crate::generated::base::swisstable_group_query::is_empty_or_deleted;
use crate::generated::core::groups::{ends_within, groups_to, groups_to_free};
use crate::generated::core::histogram::Histogram;
use crate::generated::core::shapes::Hash;
use crate::generated::core::stretches::{stretch_len, STRETCHES};
use crate::generated::header::error::Error;
use crate::generated::header::layout::Layout;
use crate::generated::raw::memory_layout::{self, check_by_header, stated_layout};
use crate::generated::raw::raw_table::{tag_of, DynRawTable};
use crate::host::prelude::*;
use crate::shim::{AllocError, Global};

/// A search of more groups is long. In tables of up to 2^24 slots of random keys at 87 percent,
/// the load that tables get where none is named, those seen have up to that many; at 50 percent up
/// to 5.
const LONG_SEARCH: usize = 24;

/// The parts of a table whose header and length fit the header's own key and value sizes.
///
/// `FxHashFn` stands for any hash function here, since it takes keys of every length.
pub struct StoredTable<'a> {
    table: DynRawTable<'a, FxHashFn>,
}

impl<'a> StoredTable<'a> {
    /// Checks the header and the length alone, and returns the first error, as
    /// [`check_by_header`] does for the key and value sizes in the header.
    pub fn open(bytes: &'a [u8]) -> Result<Self, Error> {
        let layout = stated_layout(bytes)?;
        check_by_header(bytes, layout)?;
        Ok(StoredTable { table: memory_layout::dynamic_parts(bytes, layout) })
    }

    /// The hash function that all control bytes agree with, if there is one.
    pub fn hash(&self) -> Option<Hash> {
        if self.agrees(Hash::Fx) {
            Some(Hash::Fx)
        } else if self.agrees(Hash::Unhash) {
            Some(Hash::Unhash)
        } else if self.agrees(Hash::Xxh64) {
            Some(Hash::Xxh64)
        } else {
            None
        }
    }

    /// Whether the keys are long enough for a hash function, and each occupied slot has the tag of
    /// its key by it. It ends at the first that has not.
    pub fn agrees(&self, hash: Hash) -> bool {
        if (self.table.layout().key_len as usize) < least_key_size(hash) {
            return false;
        }
        for slot in 0..self.table.len() {
            if self.is_mismatch(slot, hash) {
                return false;
            }
        }
        true
    }

    /// How many slots are occupied.
    pub fn count(&self) -> usize {
        self.count_in(0, self.table.len())
    }

    // How many of the `len` slots from `first` on are occupied.
    fn count_in(&self, first: usize, len: usize) -> usize {
        let control = self.table.controls();
        let mut count = 0_usize;
        for index in 0..len {
            let is_free = is_empty_or_deleted(control[first + index]);
            if !is_free {
                count += 1;
            }
        }
        count
    }

    /// How many slots of each stretch are occupied.
    pub fn stretches(&self, alloc: Global) -> Result<Vec<usize>, AllocError> {
        let slots = self.table.len();
        let len = stretch_len(slots);
        let most = slots.min(STRETCHES);
        let mut counts = crate::shim::with_capacity(alloc, most)?;
        for stretch in 0..most {
            counts.try_push(self.count_in(stretch * len, len))?;
        }
        Ok(counts)
    }

    /// The key and the value of a slot, where it is occupied.
    pub fn pair(&self, slot: usize) -> Option<(&'a [u8], &'a [u8])> {
        if self.is_occupied(slot) {
            Some((self.table.key(slot), self.table.value(slot)))
        } else {
            None
        }
    }

    /// How many slots there are.
    pub fn slot_count(&self) -> usize {
        self.table.len()
    }

    /// The lengths of keys and values.
    pub fn layout(&self) -> Layout {
        self.table.layout()
    }

    /// Whether more than half of the slots are occupied, in percent rounded down.
    pub fn has_high_load(&self) -> bool {
        self.count() as u128 * 100 / self.table.len() as u128 > 50
    }

    /// Whether a search for an absent key may be long.
    pub fn has_long_search(&self) -> bool {
        self.longest_miss(Some(LONG_SEARCH)) > LONG_SEARCH
    }

    /// Whether a search for an absent key of this hash is long.
    pub fn is_long_from(&self, hash: u32) -> bool {
        let (control, slots) = (self.table.controls(), self.table.len());
        groups_to_free(control, hash as usize % slots, slots, Some(LONG_SEARCH)) > LONG_SEARCH
    }

    /// Whether the mirror is the first sixteen control bytes.
    pub fn has_mirror(&self) -> bool {
        let (control, slots) = (self.table.controls(), self.table.len());
        control[slots..slots + 16] == control[0..16]
    }

    // Whether a slot is occupied, and its control byte is not the tag of its key.
    fn is_mismatch(&self, slot: usize, hash: Hash) -> bool {
        self.is_occupied(slot) && self.table.control(slot) != tag_of(self.hash_at(slot, hash))
    }

    // Whether the control byte of a slot does not count as free.
    fn is_occupied(&self, slot: usize) -> bool {
        !is_empty_or_deleted(self.table.control(slot))
    }

    // The hash of the key of a slot.
    fn hash_at(&self, slot: usize, hash: Hash) -> u32 {
        hash_key(self.table.key(slot), hash)
    }

    /// Counts for each occupied slot how many groups a search reads to find its key, by this hash
    /// function; numbers above the bound as one more than the bound. At most `bound` steps a slot.
    pub fn histogram(
        &self,
        alloc: Global,
        hash: Hash,
        bound: Option<usize>,
    ) -> Result<Histogram, AllocError> {
        let mut histogram = Histogram::new(alloc)?;
        let slots = self.table.len();
        for slot in 0..slots {
            if self.is_occupied(slot) {
                let hash = self.hash_at(slot, hash);
                histogram.add(groups_to(hash, slot, slots, bound));
            }
        }
        Ok(histogram)
    }

    /// How many groups the longest search for an absent key reads at most, whatever the hash
    /// function is; where that is above the bound, one more than the bound. It reads only control
    /// bytes, at most `bound` groups a slot.
    pub fn longest_miss(&self, bound: Option<usize>) -> usize {
        let (control, slots) = (self.table.controls(), self.table.len());
        let mut longest = 0_usize;
        for home in 0..slots {
            let groups = groups_to_free(control, home, slots, bound);
            longest = longest.max(groups);
        }
        longest
    }

    /// `SearchTooLong` of the least home from which a search may read more groups than the bound;
    /// None without a bound. It reads only control bytes, at most `bound` groups a slot.
    pub fn longer_refusal(&self, bound: Option<usize>) -> Option<Error> {
        let Some(groups) = bound else {
            return None;
        };
        // Fast where no search is longer, as in most tables.
        if self.table.searches_within(groups) {
            return None;
        }
        match self.first_longer(groups) {
            Some(home) => Some(Error::SearchTooLong { home, groups }),
            None => None,
        }
    }

    // The least home from which a search may read more groups.
    fn first_longer(&self, groups: usize) -> Option<usize> {
        let (control, slots) = (self.table.controls(), self.table.len());
        for home in 0..slots {
            if !ends_within(control, home, slots, groups) {
                return Some(home);
            }
        }
        None
    }
}

/// How many bytes the hash function needs at least.
pub(crate) fn least_key_size(hash: Hash) -> usize {
    match hash {
        Hash::Fx => FxHashFn::MIN_LEN,
        Hash::Unhash => UnHashFn::MIN_LEN,
        Hash::Xxh64 => Xxh64HashFn::MIN_LEN,
    }
}

// The hash of a key.
fn hash_key(key: &[u8], hash: Hash) -> u32 {
    match hash {
        Hash::Fx => FxHashFn::hash(key),
        Hash::Unhash => UnHashFn::hash(key),
        Hash::Xxh64 => Xxh64HashFn::hash(key),
    }
}
