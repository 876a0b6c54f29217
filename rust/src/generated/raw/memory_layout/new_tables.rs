// Generated from crates/odht_raw/src/memory_layout/new_tables.rt by make generate.
//! New tables, in given bytes and in newly allocated memory. The lengths of keys and values are
//! types or numbers.

use super::{bytes_needed, Allocation, HEADER_SIZE};
use crate::generated::raw::bytes::{ByteStoreMut, OwnedBytes};
use crate::generated::raw::config::Config;
use crate::generated::raw::error::Error;
use crate::generated::raw::layout::{Fixed, Layout, Lengths};
use crate::generated::raw::load::Factor;
use crate::generated::raw::raw_table::FREE;
use crate::shim::Global;

/// Makes a table of `slot_count` free slots in `data`, whatever its bytes were. The header's item
/// count is `item_count`. Each byte is written.
pub fn init_in_place<C: Config, M: ByteStoreMut>(
    mut data: M,
    slot_count: usize,
    item_count: usize,
    max_load_factor: Factor,
) -> Allocation<C, M> {
    let lengths: Fixed<C::EncodedKey, C::EncodedValue> = Fixed::new();
    init_parts(data.bytes_mut(), lengths, slot_count, item_count, max_load_factor);
    Allocation::from_raw_bytes_unchecked(data)
}

/// `init_in_place` in the bytes themselves, of a table of these lengths. The hash function does not
/// matter.
pub fn init_parts<L: Lengths>(
    bytes: &mut [u8],
    lengths: L,
    slot_count: usize,
    item_count: usize,
    max_load_factor: Factor,
) {
    clear_entries(bytes, lengths, slot_count);
    write_empty(bytes, lengths, slot_count, item_count, max_load_factor);
}

/// Writes zeros over the entries of the bytes of a table of `slot_count` slots. No other byte
/// changes.
pub fn clear_entries<L: Lengths>(bytes: &mut [u8], lengths: L, slot_count: usize) {
    let end = HEADER_SIZE + slot_count * lengths.entry_len();
    bytes[HEADER_SIZE..end].fill(0);
}

/// Writes a table of `slot_count` free slots into bytes whose entries are zeros: the header, and
/// the control bytes with their mirror. The header's item count is `item_count`. The hash function
/// does not matter.
pub fn write_empty<L: Lengths>(
    bytes: &mut [u8],
    lengths: L,
    slot_count: usize,
    item_count: usize,
    max_load_factor: Factor,
) {
    let at = HEADER_SIZE + slot_count * lengths.entry_len();
    let (table, control) = bytes.split_at_mut(at);
    let (header, _entries) = table.split_at_mut(HEADER_SIZE);
    let layout = Layout::of_lengths(lengths);
    layout.write_header(header, slot_count, item_count, max_load_factor);
    control.fill(FREE);
}

/// Makes a table of `slot_count` free slots in newly allocated memory. The header's item count is
/// `item_count`. The memory is allocated as zeros, so only the header and the control bytes are
/// written.
///
/// The error is `Capacity` exactly where the length of the table in bytes passes `usize::MAX`, and
/// `Memory` where the allocation fails.
pub fn allocate<C: Config>(
    alloc: Global,
    slot_count: usize,
    item_count: usize,
    max_load_factor: Factor,
) -> Result<Allocation<C, OwnedBytes>, Error> {
    let Some(len) = bytes_needed::<C>(slot_count) else {
        return Err(Error::Capacity);
    };
    let mut bytes = crate::shim::zeroed_bytes(alloc, len)?;
    let lengths: Fixed<C::EncodedKey, C::EncodedValue> = Fixed::new();
    write_empty(bytes.as_mut_slice(), lengths, slot_count, item_count, max_load_factor);
    Ok(Allocation::from_raw_bytes_unchecked(OwnedBytes::new(bytes)))
}
