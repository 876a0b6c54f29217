// Generated from crates/odht_header/src/sizes.rt by make generate.
//! How long tables are.

use crate::generated::header::bytes::ByteArray;
use crate::generated::header::config::Config;
use crate::generated::header::header::HEADER_SIZE;
use crate::generated::header::layout::Layout;
use crate::generated::header::load::{slots_needed, Factor};
use crate::generated::header::swisstable_group_query::REFERENCE_GROUP_SIZE;

/// How many bytes a table of `slot_count` slots has. None exactly where that passes `usize::MAX`.
#[inline]
pub fn bytes_needed<C: Config>(slot_count: usize) -> Option<usize> {
    Layout::of::<C>().bytes_needed(slot_count)
}

/// The slot count of a new table for `max_item_count` items, and its length in bytes. None exactly
/// where no slot count is enough, or the length passes `usize::MAX`.
pub fn layout_for<C: Config>(
    max_item_count: usize,
    max_load_factor: Factor,
) -> Option<(usize, usize)> {
    Layout::of::<C>().table_for(max_item_count, max_load_factor)
}

impl Layout {
    /// [`bytes_needed`] of a table of these lengths.
    #[inline(always)]
    pub fn bytes_needed(self, slot_count: usize) -> Option<usize> {
        let len = self.len_of_slots(slot_count);
        if len > usize::MAX as u128 {
            return None;
        }
        Some(len as usize)
    }

    /// [`layout_for`] of a table of these lengths.
    #[inline(always)]
    pub fn table_for(
        self,
        max_item_count: usize,
        max_load_factor: Factor,
    ) -> Option<(usize, usize)> {
        let slot_count = slots_needed(max_item_count, max_load_factor)?;
        let len = self.bytes_needed(slot_count)?;
        Some((slot_count, len))
    }

    // How many bytes a table of `slot_count` slots has.
    #[inline(always)]
    pub(crate) fn len_of_slots(self, slot_count: usize) -> u128 {
        let entry = self.entry_len() as u128;
        let slots = slot_count as u128;
        HEADER_SIZE as u128 + slots * entry + slots + REFERENCE_GROUP_SIZE as u128
    }
}

/// Where the entry of a slot begins in the bytes of a table; for the number of slots, where the
/// control bytes begin.
#[inline(always)]
pub fn entry_at<C: Config>(slot: usize) -> usize {
    HEADER_SIZE + slot * (C::EncodedKey::LEN + C::EncodedValue::LEN)
}

// How many bytes a table of `slot_count` slots has.
#[inline(always)]
pub(crate) fn len_of_slots<C: Config>(slot_count: usize) -> u128 {
    Layout::of::<C>().len_of_slots(slot_count)
}
