// Generated from crates/odht_raw/src/raw_table/writes.rt by make generate.
//! The write of a pair into the parts of a table, whose lengths of keys and values are types or
//! numbers: where the search for its key ended, into the first free slot, or into a slot.
//!
//! It does not return the former value of the key. A caller that wants it reads it where the search
//! ended, before the write.

use super::group_search::first_free;
use super::{slot_count_of, tag_of, EntryMetadata, Search};
use crate::generated::raw::bytes::write_slice;
use crate::generated::raw::error::Error;
use crate::generated::raw::hash::HashFn;
use crate::generated::raw::layout::Lengths;
use crate::generated::raw::memory_layout::prove_bytes;
use crate::generated::raw::swisstable_group_query::{Group, REFERENCE_GROUP_SIZE};

/// Writes a pair where the search for its key ended, which comes with the key's tag: only the value
/// into the slot that holds the key, or, where there is room, the entry with its tag into the free
/// slot. Returns whether it wrote: not, with nothing changed, where there is no room for a new
/// entry, or the search met neither slot. The caller's error is `Full` then.
///
/// The clause names the key's former value as if it were returned, for the callers that read it.
// It returns no `Result`: the room for its errors is cleared, which kept the compiler from going
// from where a search ends straight to what is written there.
#[inline(always)]
pub(crate) fn write_at_end<L: Lengths, H: HashFn>(
    control: &mut [EntryMetadata],
    entries: &mut [u8],
    slots: usize,
    lengths: L,
    key: &[u8],
    value: &[u8],
    end: (Search, u8),
    room: usize,
) -> bool {
    let (end, tag) = end;
    match end {
        Search::Found(slot) => {
            let at = slot * lengths.entry_len() + lengths.key_len();
            write_slice(entries, at, value);
            true
        }
        Search::Free(slot) => {
            if room == 0 {
                return false;
            }
            write_slot(control, entries, slots, lengths, key, value, tag, slot);
            true
        }
        Search::Neither => false,
    }
}

/// `write_at_end` with room for any number of entries. Returns `former`, the value that the caller
/// read where the search ended; or `Full`, with nothing changed, where the search met neither slot.
///
/// In the clauses `f` decodes a value.
#[inline(always)]
pub(super) fn insert_at<L: Lengths, H: HashFn, T>(
    control: &mut [EntryMetadata],
    entries: &mut [u8],
    lengths: L,
    key: &[u8],
    value: &[u8],
    end: (Search, u8),
    former: Option<T>,
) -> Result<Option<T>, Error> {
    prove_bytes(key);
    prove_bytes(value);
    let slots = slot_count_of(control);
    // As many entries may be added as there are free slots.
    let room = usize::MAX;
    if write_at_end::<L, H>(control, entries, slots, lengths, key, value, end, room) {
        Ok(former)
    } else {
        Err(Error::Full)
    }
}

/// Writes the pair into the first free slot of its key's probe order. No key is compared, so it is
/// for a key that the table does not have. `Full`, with nothing changed, where no slot is free.
#[inline(always)]
pub fn write_new<L: Lengths, H: HashFn, Q: Group>(
    control: &mut [EntryMetadata],
    entries: &mut [u8],
    lengths: L,
    key: &[u8],
    value: &[u8],
) -> Result<(), Error> {
    prove_bytes(key);
    prove_bytes(value);
    let hash = H::hash(key);
    let Some(slot) = first_free::<Q>(control, hash) else {
        return Err(Error::Full);
    };
    let slots = slot_count_of(control);
    write_slot(control, entries, slots, lengths, key, value, tag_of(hash), slot);
    Ok(())
}

/// Writes the pair into a slot, the tag into the slot's control byte, and for a slot below 16 the
/// tag into the mirror.
#[inline(always)]
pub(crate) fn write_slot<L: Lengths>(
    control: &mut [EntryMetadata],
    entries: &mut [u8],
    slots: usize,
    lengths: L,
    key: &[u8],
    value: &[u8],
    tag: u8,
    slot: usize,
) {
    let at = slot * lengths.entry_len();
    write_slice(entries, at, key);
    write_slice(entries, at + lengths.key_len(), value);
    index_mut!(control[slot], "slot < slots") = tag;
    if slot < REFERENCE_GROUP_SIZE {
        index_mut!(control[slots + slot], "slot < slots") = tag;
    }
}

/// Whether a search found the key.
#[inline(always)]
pub(crate) fn is_found(end: Search) -> bool {
    match end {
        Search::Found(_) => true,
        Search::Free(_) => false,
        Search::Neither => false,
    }
}
