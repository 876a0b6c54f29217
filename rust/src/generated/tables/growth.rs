// Generated from crates/odht/src/growth.rt by make generate.
//! Growth: a table with the slots for twice as many items, or for more, written into larger bytes.

use crate::generated::tables::bytes::ByteStore;
use crate::generated::tables::config::Config;
use crate::generated::tables::error::Error;
use crate::generated::tables::hash::HashFn;
use crate::generated::tables::hash_table::HashTable;
use crate::generated::tables::layout::{Fixed, Layout, Lengths};
use crate::generated::tables::load::{max_item_count_for, Factor};
use crate::generated::tables::memory_layout::{self, clear_entries, parts_in, Header, HEADER_SIZE};
use crate::generated::tables::raw_table::{write_new, PartPairs};
use crate::generated::tables::swisstable_group_query::GroupQuery;
use crate::shim::Global;
use alloc::vec::Vec;

impl<C: Config, D: ByteStore> HashTable<C, D> {
    /// Returns the length in bytes of the table that this one grows into. That table has the slots
    /// for twice the header's item count, and for at least one item, at the same load factor.
    /// Returns `None` exactly if no slot count is large enough, or the length exceeds `usize::MAX`.
    /// docs/FORMAT.md, "Growth", specifies the rule.
    ///
    /// The load factor of valid bytes is at least 655 65536ths of the slots, one percent rounded
    /// down. A smaller one is used as it is. For 0 no slot count is large enough, so the result is
    /// `None`.
    ///
    /// The count is the header's. In bytes that were not checked it may be any number: check them,
    /// or bound the length, before you allocate.
    pub fn grown_len(&self) -> Option<usize> {
        let lengths: Fixed<C::EncodedKey, C::EncodedValue> = Fixed::new();
        grown_len_of::<Fixed<C::EncodedKey, C::EncodedValue>, C::H>(self.raw_bytes(), lengths)
    }

    /// Writes the table that this one grows into to `out`, over any bytes that are there. `out`
    /// must have [`HashTable::grown_len`] bytes. The pairs are placed in slot order into the slots
    /// for twice as many items, and for at least one, at the same load factor. The owned table
    /// grows in this way at its maximum (docs/FORMAT.md, "Growth").
    ///
    /// It makes one pass over `out`, and one over the slots of this table. It hashes each item
    /// once, and compares no key.
    ///
    /// On any bytes the new header has the item count and the load factor of this one. The pairs
    /// of the walk are placed as long as a slot is free. The contract does not state this.
    pub fn grow_into(&self, out: &mut [u8]) {
        let lengths: Fixed<C::EncodedKey, C::EncodedValue> = Fixed::new();
        grow_parts::<Fixed<C::EncodedKey, C::EncodedValue>, C::H>(self.raw_bytes(), lengths, out);
    }
}

/// `grown_len` of the bytes of a table. All tables, and the calls for C, grow by these functions.
/// The lengths of keys and values are types or numbers.
pub fn grown_len_of<L: Lengths, H: HashFn>(bytes: &[u8], lengths: L) -> Option<usize> {
    match grown_sizes::<L, H>(bytes, lengths) {
        Some((_, len)) => Some(len),
        None => None,
    }
}

// The slot count and the length in bytes of the table that the one in the bytes grows into. None
// exactly where no slot count is enough, or the length passes `usize`.
#[inline(always)]
fn grown_sizes<L: Lengths, H: HashFn>(bytes: &[u8], lengths: L) -> Option<(usize, usize)> {
    let header = Header::of(bytes);
    let factor = header.max_load_factor();
    let Some(twice) = header.item_count().checked_mul(2) else {
        return None;
    };
    if factor.0 == 0 {
        return None;
    }
    Layout::of_lengths(lengths).table_for(twice.max(1), factor)
}

/// `grow_into` of the bytes of a table. `out` has the length that [`grown_len_of`] returns.
pub fn grow_parts<L: Lengths, H: HashFn>(bytes: &[u8], lengths: L, out: &mut [u8]) {
    let Some((slot_count, _)) = grown_sizes::<L, H>(bytes, lengths) else {
        // `out` has the length of the grown table.
        unreachable!()
    };
    clear_entries(out, lengths, slot_count);
    move_parts::<L, H>(bytes, lengths, slot_count, out);
}

/// The bytes of the table that the one in the bytes grows into, in new memory. None where the
/// allocator gives no memory for it, or it would be too large.
#[inline(never)]
pub(crate) fn grown_bytes<L: Lengths, H: HashFn>(
    alloc: Global,
    bytes: &[u8],
    lengths: L,
) -> Option<Vec<u8>> {
    let (slot_count, len) = grown_sizes::<L, H>(bytes, lengths)?;
    let grown = moved_bytes::<L, H>(alloc, bytes, lengths, slot_count, len)?;
    Some(grown)
}

// The pairs of the table in the bytes, placed in slot order into that many slots in new memory.
// `len` is the length for them. The new header has the item count and the load factor of the
// table. None where the allocator gives no memory.
#[inline(always)]
fn moved_bytes<L: Lengths, H: HashFn>(
    alloc: Global,
    bytes: &[u8],
    lengths: L,
    slot_count: usize,
    len: usize,
) -> Option<Vec<u8>> {
    let Ok(mut out) = crate::shim::zeroed_bytes(alloc, len) else {
        return None;
    };
    move_parts::<L, H>(bytes, lengths, slot_count, out.as_mut_slice());
    Some(out)
}

// Writes the pairs of the table in the bytes, placed in slot order into that many slots, into
// bytes whose entries are zeros. The new header has the item count and the load factor of the
// table.
fn move_parts<L: Lengths, H: HashFn>(bytes: &[u8], lengths: L, slot_count: usize, out: &mut [u8]) {
    let header = Header::of(bytes);
    let items = header.item_count();
    let factor = header.max_load_factor();
    let walk = parts_in::<L, H>(bytes, lengths).iter();
    write_walked::<L, H>(out, lengths, slot_count, items, factor, walk);
}

// Writes the table of that many slots with the pairs of the walk into bytes whose entries are
// zeros. The new header gets `item_count`, whatever the walk gives.
fn write_walked<L: Lengths, H: HashFn>(
    bytes: &mut [u8],
    lengths: L,
    slot_count: usize,
    item_count: usize,
    max_load_factor: Factor,
    walk: PartPairs<'_, L, H>,
) {
    memory_layout::write_empty(bytes, lengths, slot_count, item_count, max_load_factor);
    let at = HEADER_SIZE + slot_count * lengths.entry_len();
    let (table, control) = bytes.split_at_mut(at);
    let (_header, entries) = table.split_at_mut(HEADER_SIZE);
    place_walk::<L, H>(control, entries, lengths, walk);
}

// Places the pairs of a walk in turn into the parts of a table, each as long as a slot is free.
// The clause is for keys that are pairwise distinct and new to the table, as on valid bytes; other
// walks are taken too.
fn place_walk<L: Lengths, H: HashFn>(
    control: &mut [u8],
    entries: &mut [u8],
    lengths: L,
    walk: PartPairs<'_, L, H>,
) {
    for (key, value) in walk {
        // There is room for each item of a valid table.
        let _ = write_new::<L, H, GroupQuery>(control, entries, lengths, key, value);
    }
}

/// Room for `additional` more items than the table in valid bytes has. None where it has the room,
/// and no memory is asked for. Otherwise its pairs, placed in slot order into the least slot count
/// that is enough, in new memory. All tables that own their bytes reserve by it.
///
/// Where the room is lacking, `Capacity` exactly where no slot count is enough, or the length
/// passes `usize`; otherwise `Memory` where the allocator gives none.
pub(crate) fn room_for<L: Lengths, H: HashFn>(
    alloc: Global,
    bytes: &[u8],
    lengths: L,
    additional: usize,
) -> Result<Option<Vec<u8>>, Error> {
    let header = Header::of(bytes);
    let sizes = match sizes_for_more::<H>(Layout::of_lengths(lengths), &header, additional) {
        Ok(sizes) => sizes,
        Err(too_large) => return Err(too_large),
    };
    let Some((slot_count, len)) = sizes else {
        return Ok(None);
    };
    match moved_bytes::<L, H>(alloc, bytes, lengths, slot_count, len) {
        Some(moved) => Ok(Some(moved)),
        None => Err(Error::Memory),
    }
}

// The slot count and the length in bytes of the table that has room for `additional` more items
// than one of these lengths and with this header. Of the header of a valid table: None where that
// one has the room; `Capacity` exactly where it has not, and no slot count is enough, or the
// length passes `usize`.
fn sizes_for_more<H: HashFn>(
    layout: Layout,
    header: &Header<'_>,
    additional: usize,
) -> Result<Option<(usize, usize)>, Error> {
    let item_count = header.item_count();
    let factor = header.max_load_factor();
    let most = max_item_count_for(header.slot_count(), factor);
    if additional <= most.saturating_sub(item_count) {
        return Ok(None);
    }
    let Some(wanted) = item_count.checked_add(additional) else {
        return Err(Error::Capacity);
    };
    match layout.table_for(wanted, factor) {
        Some(sizes) => Ok(Some(sizes)),
        None => Err(Error::Capacity),
    }
}
