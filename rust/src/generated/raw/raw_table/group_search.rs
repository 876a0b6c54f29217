// Generated from crates/odht_raw/src/raw_table/group_search.rt by make generate.
//! The search by groups of control bytes along the probe order, for a key or for the first slot that
//! counts as free.

use super::{
    is_empty_or_deleted, tag_of, Entries, EntryMetadata, GroupProbe, ProbeSeq, Scan, Search, Stored,
};
use crate::generated::raw::bytes::ByteArray;
use crate::generated::raw::hash::HashFn;
use crate::generated::raw::layout::{Fixed, Lengths};
use crate::generated::raw::swisstable_group_query::{Group, GroupQuery, REFERENCE_GROUP_SIZE};

/// Searches for the key group by group along its probe order. All of this holds for every group
/// search; the rules are those of docs/FORMAT.md, "Search".
///
/// On the parts of a placed table the result is the first slot that is free or holds the key,
/// which is where a pair with the key is placed, and the scan's count rises by the groups up to
/// it.
///
/// On any parts the count rises by no more than there are groups, and the result is one of
/// - `Found(i)`: the entry of `i` has the key. Each slot of an earlier group counts as occupied; a
///   free byte of the same group may come before it.
/// - `Free(i)`: `i` counts as free, and each slot before it as occupied.
/// - `Neither`: each slot counts as occupied.
///
/// Each slot before it, or of `Neither` each slot, has another tag than the key or another key.
/// "Before" is in the probe order. A slot below 16 has two control bytes, and counts as what
/// either of them says, so it may count as both.
#[inline(always)]
pub fn search<K: ByteArray, V: ByteArray, H: HashFn, Q: Group>(
    scan: &mut Scan<'_>,
    entries: &Entries<'_, K, V>,
    key: &K,
) -> Search {
    let hash = H::hash(key.as_slice());
    search_hashed::<K, V, H, Q>(scan, entries, key, hash)
}

/// `search` of a key whose hash is known.
#[inline(always)]
pub fn search_hashed<K: ByteArray, V: ByteArray, H: HashFn, Q: Group>(
    scan: &mut Scan<'_>,
    entries: &Entries<'_, K, V>,
    key: &K,
    hash: u32,
) -> Search {
    search_stored::<Fixed<K, V>, H, Q>(scan, &entries.stored(), key.as_slice(), hash)
}

/// [`search`], which has the rules, for a key with this hash and entries of any lengths. Lookups and
/// inserts call it. It reads control bytes only through the scan, which counts each group.
#[inline(always)]
pub(super) fn search_stored<L: Lengths, H: HashFn, Q: Group>(
    scan: &mut Scan<'_>,
    stored: &Stored<'_, L>,
    key: &[u8],
    hash: u32,
) -> Search {
    let probe = ProbeSeq::new(hash as usize, scan.slots() - 1);
    search_from::<L, H, Q>(scan, probe, stored, key, tag_of(hash))
}

// The rest of a search that is under way, from the position of the probe on.
#[inline(always)]
fn search_from<L: Lengths, H: HashFn, Q: Group>(
    scan: &mut Scan<'_>,
    probe: ProbeSeq<REFERENCE_GROUP_SIZE>,
    stored: &Stored<'_, L>,
    key: &[u8],
    tag: u8,
) -> Search {
    let mut probe = probe;
    let mask = stored.slots() - 1;
    loop {
        let start = probe.index();
        let bytes = scan.group(start);
        if let Some(end) = search_group::<L, H, Q>(bytes, start, stored, key, tag) {
            return end;
        }
        if probe.is_last() {
            return Search::Neither;
        }
        probe.advance(mask);
    }
}

/// The rest of a search whose first group neither holds the key nor has a free byte. It is not
/// inlined: where a first look ends the search, this is not called.
#[inline(never)]
pub(super) fn search_next_groups<L: Lengths, H: HashFn>(
    control: &[EntryMetadata],
    stored: &Stored<'_, L>,
    key: &[u8],
    hash: u32,
) -> Search {
    let mask = stored.slots() - 1;
    let mut probe = ProbeSeq::new(hash as usize, mask);
    if probe.is_last() {
        return Search::Neither;
    }
    probe.advance(mask);
    let mut scan = Scan::new(control, stored.slots());
    let tag = tag_of(hash);
    search_from::<L, H, GroupQuery>(&mut scan, probe, stored, key, tag)
}

// Searches the sixteen slots from `start` on, whose control bytes are `bytes`, in pieces of the
// group search's size.
#[inline(always)]
fn search_group<L: Lengths, H: HashFn, Q: Group>(
    bytes: &[EntryMetadata],
    start: usize,
    stored: &Stored<'_, L>,
    key: &[u8],
    tag: u8,
) -> Option<Search> {
    // One piece is told apart here, not by a loop of one turn: so the compiler knows early that a
    // match ends the search.
    if Q::SIZE == REFERENCE_GROUP_SIZE {
        return search_piece::<L, H, Q>(bytes, start, stored, key, tag);
    }
    for piece in 0..REFERENCE_GROUP_SIZE / Q::SIZE {
        let at = piece * Q::SIZE;
        let end = search_piece::<L, H, Q>(&bytes[at..at + Q::SIZE], start + at, stored, key, tag);
        if end.is_some() {
            return end;
        }
    }
    None
}

// Searches the slots from `start` on, modulo the slot count, whose control bytes are `bytes`.
#[inline(always)]
fn search_piece<L: Lengths, H: HashFn, Q: Group>(
    bytes: &[EntryMetadata],
    start: usize,
    stored: &Stored<'_, L>,
    key: &[u8],
    tag: u8,
) -> Option<Search> {
    let mask = stored.slots() - 1;
    let mut group = Q::of(bytes, tag);
    while let Some(index) = group.first_match() {
        let slot = (start + index) & mask;
        if stored.has_key(slot, key) {
            return Some(Search::Found(slot));
        }
        group.drop_match();
    }
    match group.first_empty() {
        Some(index) => Some(Search::Free((start + index) & mask)),
        None => None,
    }
}

/// The first slot of the probe order of a hash that counts as free, by its control byte or its
/// mirror; None where each slot counts as occupied. Matches of the tag are not used, and no key is
/// compared.
///
/// The home slot's own byte is read first: a load of sixteen bytes has to wait for a byte that was
/// just written, a load of this byte alone does not. All this holds for every group search.
#[inline]
pub(super) fn first_free<Q: Group>(control: &[EntryMetadata], hash: u32) -> Option<usize> {
    let mask = control.len() - REFERENCE_GROUP_SIZE - 1;
    let home = hash as usize & mask;
    if is_empty_or_deleted(control[home]) {
        return Some(home);
    }
    first_free_by_groups::<Q>(control, hash, mask)
}

// `first_free` group by group. The mask is the slot count less one.
//
// In one function with the look at the home slot, tables that grow took up to a hundredth more
// instructions.
#[inline]
fn first_free_by_groups<Q: Group>(
    control: &[EntryMetadata],
    hash: u32,
    mask: usize,
) -> Option<usize> {
    let tag = tag_of(hash);
    let mut probe = GroupProbe::new(control, mask + 1, hash as usize);
    loop {
        let start = probe.start();
        if let Some(index) = first_free_of_group::<Q>(probe.read(), tag) {
            return Some((start + index) & mask);
        }
        if probe.is_last() {
            return None;
        }
        probe.advance();
    }
}

// The index of the first of sixteen control bytes that counts as free, searched in pieces of the
// group search's size. The tag does not matter.
#[inline]
fn first_free_of_group<Q: Group>(bytes: &[EntryMetadata], tag: u8) -> Option<usize> {
    for piece in 0..REFERENCE_GROUP_SIZE / Q::SIZE {
        let at = piece * Q::SIZE;
        let group = Q::of(&bytes[at..at + Q::SIZE], tag);
        if let Some(index) = group.first_empty() {
            return Some(at + index);
        }
    }
    None
}
