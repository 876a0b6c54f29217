// Generated from crates/odht_raw/src/memory_layout/opening.rt by make generate.
//! Opening the bytes of a table: the lengths that a header states, the checks, the parts of the bytes,
//! and the table at the front of longer bytes. The lengths of keys and values are types or numbers.

use super::{Header, HEADER_SIZE};
use crate::generated::raw::config::Config;
use crate::generated::raw::error::Error;
use crate::generated::raw::hash::HashFn;
use crate::generated::raw::layout::{Layout, Lengths};
use crate::generated::raw::raw_table::{DynRawTable, Parts, Stored};

// How many slots are checked when a view is opened.
const SLOTS_TO_CHECK: usize = 10;

/// The lengths of keys and values that the header at the front of the bytes states, of which
/// nothing is checked; `TooShort` where they are too few for one.
#[inline]
pub fn stated_layout(bytes: &[u8]) -> Result<Layout, Error> {
    let found = bytes.len();
    if found < HEADER_SIZE {
        return Err(Error::TooShort { found });
    }
    Ok(Header::of(bytes).layout())
}

/// Checks the bytes as those of a table of these lengths only by their header and length, and
/// returns the first error: `TooShort`, then those of [`Header::check_layout`]. No slot is read,
/// and the hash function does not matter.
#[inline]
pub fn check_by_header(bytes: &[u8], layout: Layout) -> Result<(), Error> {
    let found = bytes.len();
    if found < HEADER_SIZE {
        return Err(Error::TooShort { found });
    }
    Header::of(bytes).check_layout(layout, found)
}

/// Checks the bytes as those of a table of these lengths, and returns the first error: those of
/// [`check_by_header`], then those of [`Parts::sanity_check_hashes`] on the first ten slots. Bytes
/// that pass need not be valid.
///
/// [`Parts::sanity_check_hashes`]: crate::generated::raw::raw_table::Parts::sanity_check_hashes
#[inline(always)]
pub fn check_opening_in<L: Lengths, H: HashFn>(bytes: &[u8], lengths: L) -> Result<(), Error> {
    check_by_header(bytes, Layout::of_lengths(lengths))?;
    parts_in::<L, H>(bytes, lengths).sanity_check_hashes(SLOTS_TO_CHECK)
}

/// [`check_opening_in`] where the lengths are numbers.
pub fn check_opening<H: HashFn>(bytes: &[u8], layout: Layout) -> Result<(), Error> {
    check_opening_in::<Layout, H>(bytes, layout)
}

/// How many bytes the table at the front of `bytes` has, by its header. What follows is not looked
/// at, nor is any slot.
///
/// The first error: `TooShort`, then those of [`Header::sanity_check`], but `WrongLength` only
/// where there are fewer bytes than the table has. It is Ok exactly where that many bytes would be
/// accepted by
/// [`Allocation::from_raw_bytes_by_header`](super::Allocation::from_raw_bytes_by_header), and then
/// no other number of bytes at the front would. Constant time.
#[inline]
pub fn table_len<C: Config>(bytes: &[u8]) -> Result<usize, Error> {
    dynamic_table_len(bytes, Layout::of::<C>())
}

/// [`table_len`] of a table of these lengths. The hash function does not matter.
#[inline]
pub fn dynamic_table_len(bytes: &[u8], layout: Layout) -> Result<usize, Error> {
    let found = bytes.len();
    if found < HEADER_SIZE {
        return Err(Error::TooShort { found });
    }
    Header::of(bytes).layout_len(layout, found)
}

/// The parts of bytes whose header and length fit. Of the bytes of a valid table they are its
/// parts.
#[inline(always)]
pub fn parts_in<L: Lengths, H: HashFn>(bytes: &[u8], lengths: L) -> Parts<'_, L, H> {
    let slots = Header::of(bytes).slot_count();
    crate::shim::slots::check::<&[u8]>(
        bytes.len(),
        slots,
        crate::generated::header::layout::Layout {
            key_len: lengths.key_len() as u8,
            value_len: lengths.value_len() as u8,
        },
    );
    cut::<L, H>(bytes, slots, lengths)
}

/// `parts_in` of bytes whose slot count is known, and which are as long as it says.
#[inline(always)]
pub(super) fn cut<L: Lengths, H: HashFn>(
    bytes: &[u8],
    slots: usize,
    lengths: L,
) -> Parts<'_, L, H> {
    let control_at = HEADER_SIZE + slots * lengths.entry_len();
    let stored = Stored::new(
        &index!(bytes[HEADER_SIZE..control_at], "length bytes.now ≡ image_len F slots"),
        slots,
        lengths,
    );
    let parts =
        Parts::of(&index!(bytes[control_at..], "length bytes.now ≡ image_len F slots"), stored);
    // For the prover: they are 16 more than the slots.
    let _ = parts.controls();
    parts
}

/// [`parts_in`] where the lengths are numbers.
#[inline(always)]
pub fn dynamic_parts<H: HashFn>(bytes: &[u8], layout: Layout) -> DynRawTable<'_, H> {
    parts_in::<Layout, H>(bytes, layout)
}
