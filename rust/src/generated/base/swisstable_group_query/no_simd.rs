// Generated from crates/odht_base/src/swisstable_group_query/no_simd.rt by make generate.
//! The search of eight control bytes in one word of 64 bits.

use super::{Group, IndexSet};

/// How many control bytes are searched at once.
pub const GROUP_SIZE: usize = 8;

// One in each byte.
const LOW_BITS: u64 = 0x0101_0101_0101_0101;

// 128 in each byte.
const HIGH_BITS: u64 = 0x8080_8080_8080_8080;

/// A search of eight control bytes. It iterates over its matches.
///
/// Beside each byte that is the tag, a byte that differs from the tag in its lowest bit alone can
/// match, but only where the byte before it matches too: the subtraction of that byte borrows from
/// it.
pub struct GroupQuery {
    matches: IndexSet,
    free: IndexSet,
}

// The index of the byte with the least of these bits.
#[inline(always)]
fn first_byte(bits: &IndexSet) -> Option<usize> {
    match bits.first() {
        Some(position) => Some(position / 8),
        None => None,
    }
}

impl GroupQuery {
    /// Searches a group for a tag, which is below 128.
    #[inline]
    pub fn from(group: &[u8; GROUP_SIZE], h2: u8) -> GroupQuery {
        let group = u64::from_le_bytes(*group);
        let cmp = group ^ (h2 as u64 * LOW_BITS);
        GroupQuery {
            matches: IndexSet::of_bits(cmp.wrapping_sub(LOW_BITS) & (!cmp & HIGH_BITS)),
            free: IndexSet::of_bits(group & HIGH_BITS),
        }
    }

    /// Whether the group has a byte of 128 or more.
    #[inline]
    pub fn any_empty(&self) -> bool {
        Group::any_empty(self)
    }

    /// The least index of a byte of 128 or more, whether or not matches were dropped.
    #[inline]
    pub fn first_empty(&self) -> Option<usize> {
        Group::first_empty(self)
    }
}

impl Group for GroupQuery {
    const SIZE: usize = GROUP_SIZE;

    /// Searches a group for a tag, which is below 128.
    #[inline]
    fn of(bytes: &[u8], h2: u8) -> GroupQuery {
        let Some(group) = bytes.first_chunk::<GROUP_SIZE>() else { unreachable!() };
        GroupQuery::from(group, h2)
    }

    #[inline]
    fn any_empty(&self) -> bool {
        !self.free.is_empty()
    }

    #[inline]
    fn first_empty(&self) -> Option<usize> {
        first_byte(&self.free)
    }

    #[inline]
    fn first_match(&self) -> Option<usize> {
        first_byte(&self.matches)
    }

    #[inline]
    fn drop_match(&mut self) {
        self.matches.drop_first();
    }
}

impl Iterator for GroupQuery {
    type Item = usize;

    /// Takes the least match that is left.
    #[inline]
    fn next(&mut self) -> Option<usize> {
        let index = self.first_match()?;
        self.drop_match();
        Some(index)
    }
}
