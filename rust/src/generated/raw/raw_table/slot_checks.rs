// Generated from crates/odht_raw/src/raw_table/slot_checks.rt by make generate.
//! What opening checks of the first slots, and the whole check of each slot; and what checks and an
//! order of inserts read of a slot.

use super::{is_empty_or_deleted, tag_of, Parts};
use crate::generated::raw::bytes::is_zeros;
use crate::generated::raw::error::Error;
use crate::generated::raw::hash::HashFn;
use crate::generated::raw::layout::Lengths;

impl<'a, L: Lengths, H: HashFn> Parts<'a, L, H> {
    /// Checks the first `slots_to_check` slots, or all where there are fewer, and returns the
    /// first error: `NonZeroEmpty` of a slot that counts as free, `ControlMismatch` of any other.
    ///
    /// A mismatch can mean that the bytes were written with another hash function.
    #[inline(always)]
    pub fn sanity_check_hashes(&self, slots_to_check: usize) -> Result<(), Error> {
        let slots = slots_to_check.min(self.len());
        for slot in 0..slots {
            check_slot(self, slot)?;
        }
        Ok(())
    }

    /// The hash of the key in a slot.
    #[inline(always)]
    pub(super) fn hash_of(&self, slot: usize) -> u32 {
        hash_by_len::<H>(self.key(slot))
    }

    /// The home of the key in a slot that may come from a list. The plain-Rust build checks this
    /// index: where another process rewrites the table's bytes meanwhile, the list may name any
    /// slot.
    #[inline(always)]
    pub(super) fn home_of(&self, slot: usize) -> usize {
        let mask = self.len() - 1;
        hash_by_len::<H>(self.stored.listed_key(slot)) as usize & mask
    }

    /// Whether the entry of a slot is zeros.
    #[inline(always)]
    pub(super) fn has_zeros(&self, slot: usize) -> bool {
        is_zeros(self.entry(slot))
    }

    /// Whether the keys of two slots are equal.
    #[inline(always)]
    pub(super) fn have_same_key(&self, slot: usize, other: usize) -> bool {
        self.has_key(slot, self.key(other))
    }
}

/// What opening checks of one slot.
#[inline(always)]
pub(super) fn check_slot<L: Lengths, H: HashFn>(
    table: &Parts<'_, L, H>,
    slot: usize,
) -> Result<(), Error> {
    let control = table.controls();
    if is_empty_or_deleted(control[slot]) {
        if table.has_zeros(slot) {
            return Ok(());
        }
        return Err(Error::NonZeroEmpty { slot });
    }
    check_key(table, slot)?;
    Ok(())
}

/// The hash of the key of an occupied slot; `ControlMismatch` where its tag is not the control
/// byte.
#[inline(always)]
pub(super) fn check_key<L: Lengths, H: HashFn>(
    table: &Parts<'_, L, H>,
    slot: usize,
) -> Result<u32, Error> {
    let hash = table.hash_of(slot);
    let control = table.controls();
    let found = control[slot];
    let expected = tag_of(hash);
    if found != expected {
        return Err(Error::ControlMismatch { slot, expected, found });
    }
    Ok(hash)
}

// The hash of a key. One of eight bytes, as most are, is told apart: the compiler reads it with no
// loop, also where lengths are numbers. To tell more lengths apart takes longer than it saves.
#[inline(always)]
fn hash_by_len<H: HashFn>(key: &[u8]) -> u32 {
    if key.len() == 8 {
        return H::hash(&key[..8]);
    }
    H::hash(key)
}
