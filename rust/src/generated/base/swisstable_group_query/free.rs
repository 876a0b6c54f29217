// Generated from crates/odht_base/src/swisstable_group_query/free.rt by make generate.
//! Which control bytes count as free: those of 128 or more. Of a byte, and of up to 64 in the
//! lanes of vectors.

use super::{IndexSet, REFERENCE_GROUP_SIZE};
use crate::shim::u8x16;

// The least control byte that counts as free: one above each tag.
const LEAST_FREE: u8 = 128;

/// Whether a control byte counts as free. The name is that of the Rust crate; no slot is ever
/// deleted.
#[inline]
pub fn is_empty_or_deleted(control: u8) -> bool {
    control >= LEAST_FREE
}

/// A bit for each of sixteen control bytes, the lowest for the first: set where the byte counts as
/// free.
#[inline(always)]
pub(super) fn free_bits(control: u8x16) -> u64 {
    control.simd_ge(u8x16::splat(LEAST_FREE)).to_bitmask()
}

/// The index of a control byte that counts as free among sixteen: the least from 8 on, where there
/// is one, else the least of all; None where no byte does.
///
/// A late one is asked for by who wants to know of the groups that begin a few slots further on:
/// those up to this byte have it too.
#[inline]
pub fn late_free(control: &[u8]) -> Option<usize> {
    let free = free_bits(u8x16::from_slice(control));
    match IndexSet::of_bits(free >> 8).first() {
        Some(index) => Some(index + 8),
        None => IndexSet::of_bits(free).first(),
    }
}

/// The indices of the control bytes that do not count as free among the first `count`, at most
/// sixteen, of sixteen.
#[inline]
pub fn occupied(control: &[u8], count: usize) -> IndexSet {
    let first = (1_u64 << count as u32) - 1;
    let free = free_bits(u8x16::from_slice(control)) & first;
    IndexSet::of_bits(first - free)
}

/// The indices of the control bytes that count as free, and of the others. There are up to 64, a
/// multiple of sixteen.
#[inline(always)]
pub fn free_and_occupied(control: &[u8]) -> (IndexSet, IndexSet) {
    let mut free = 0;
    let mut at = 0;
    while at < control.len() {
        free += free_bits(u8x16::from_slice(&control[at..at + REFERENCE_GROUP_SIZE])) << at as u32;
        at += REFERENCE_GROUP_SIZE;
    }
    let all = u64::MAX >> (64 - control.len()) as u32;
    (IndexSet::of_bits(free), IndexSet::of_bits(!free & all))
}
