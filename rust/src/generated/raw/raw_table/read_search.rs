// Generated from crates/odht_raw/src/raw_table/read_search.rt by make generate.
//! The search in the parts of a table that are read by position, such as those of a file.

use super::probe_seq::probed_slot;
use super::{tag_of, EntryMetadata, Search};
use crate::generated::raw::hash::HashFn;
use crate::generated::raw::layout::Layout;
use crate::generated::raw::read_at::{read_exact_at, ReadAt, ReadError};
use crate::generated::raw::swisstable_group_query::{lanes, Group, REFERENCE_GROUP_SIZE};

/// Where the parts of a table are in a source of bytes.
pub struct ReadPlace {
    /// The offset of the entries.
    pub entries_at: u64,
    /// The offset of the control bytes.
    pub control_at: u64,
    /// How many slots there are.
    pub slots: usize,
    /// The lengths of keys and values.
    pub layout: Layout,
}

/// Searches for the key as [`search`](super::search) does, and says how many groups were read. It
/// reads each group of the probe order at most once, up to the one where the search ends, and of
/// each slot whose tag fits the key.
///
/// Where the source gives the bytes of one list throughout, which is long enough to have the
/// parts, the result is that of the search in the parts of this list, or the error of a read that
/// failed. Whatever the reads give, a key that is found is in one of the slots, and a search that
/// returns has read no more groups than there are.
pub fn search_read<S: ReadAt, H: HashFn>(
    source: &S,
    place: &ReadPlace,
    key: &[u8],
) -> Result<(Search, usize), ReadError> {
    let hash = H::hash(key);
    let (tag, home) = (tag_of(hash), hash as usize & (place.slots - 1));
    let groups = place.slots / REFERENCE_GROUP_SIZE;
    for group in 0..groups {
        let start = probed_slot(home, group * REFERENCE_GROUP_SIZE, place.slots);
        let mut bytes = [0; REFERENCE_GROUP_SIZE];
        read_exact_at(source, place.control_at + start as u64, &mut bytes)?;
        let end = look_at_read::<S, H, lanes::GroupQuery>(source, place, &bytes, start, key, tag)?;
        if let Some(end) = end {
            return Ok((end, group + 1));
        }
    }
    Ok((Search::Neither, groups))
}

// Searches the sixteen slots from `start` on, modulo the slot count, whose control bytes are
// `bytes`.
fn look_at_read<S: ReadAt, H: HashFn, Q: Group>(
    source: &S,
    place: &ReadPlace,
    bytes: &[EntryMetadata],
    start: usize,
    key: &[u8],
    tag: u8,
) -> Result<Option<Search>, ReadError> {
    let mask = place.slots - 1;
    let mut group = Q::of(bytes, tag);
    while let Some(index) = group.first_match() {
        let slot = (start + index) & mask;
        if is_read_key(source, place, slot, key)? {
            return Ok(Some(Search::Found(slot)));
        }
        group.drop_match();
    }
    match group.first_empty() {
        Some(index) => Ok(Some(Search::Free((start + index) & mask))),
        None => Ok(None),
    }
}

// Whether the key of a slot is `key`.
fn is_read_key<S: ReadAt>(
    source: &S,
    place: &ReadPlace,
    slot: usize,
    key: &[u8],
) -> Result<bool, ReadError> {
    let at = place.entries_at + slot as u64 * place.layout.entry_len() as u64;
    let mut bytes = [0; 255];
    let (found, _) = bytes.split_at_mut(key.len());
    read_exact_at(source, at, found)?;
    Ok(&*found == key)
}
