// Generated from crates/odht_base/src/swisstable_group_query/lanes.rt by make generate.
//! The search of sixteen control bytes at once, in the lanes of one vector.

use super::free::free_bits;
use super::lane_set::LaneSet;
use super::{Group, IndexSet};
use crate::shim::u8x16;

/// How many control bytes are searched at once.
pub const GROUP_SIZE: usize = 16;

/// A search of sixteen control bytes. It iterates over its matches: exactly the indices of the
/// tag.
pub struct GroupQuery {
    matches: LaneSet,
    free: IndexSet,
}

impl GroupQuery {
    /// Searches a group for a tag, which is below 128.
    #[inline]
    pub fn from(group: &[u8; GROUP_SIZE], h2: u8) -> GroupQuery {
        Group::of(group, h2)
    }

    /// Whether the group has a byte of 128 or more.
    #[inline]
    pub fn any_empty(&self) -> bool {
        Group::any_empty(self)
    }

    /// The least index of a byte of 128 or more, whether or not matches were dropped.
    #[inline]
    pub fn first_empty(&self) -> Option<usize> {
        Group::first_empty(self)
    }
}

impl Group for GroupQuery {
    const SIZE: usize = GROUP_SIZE;

    /// Searches a group for a tag, which is below 128.
    #[inline]
    fn of(bytes: &[u8], h2: u8) -> GroupQuery {
        let lanes = u8x16::from_slice(bytes);
        GroupQuery {
            matches: LaneSet::of_bits(lanes.simd_eq(u8x16::splat(h2)).to_bitmask()),
            free: IndexSet::of_bits(free_bits(lanes)),
        }
    }

    #[inline]
    fn any_empty(&self) -> bool {
        !self.free.is_empty()
    }

    #[inline]
    fn first_empty(&self) -> Option<usize> {
        self.free.first()
    }

    #[inline]
    fn first_match(&self) -> Option<usize> {
        self.matches.first()
    }

    #[inline]
    fn drop_match(&mut self) {
        self.matches.drop_first();
    }
}

impl Iterator for GroupQuery {
    type Item = usize;

    /// Takes the least match that is left.
    #[inline]
    fn next(&mut self) -> Option<usize> {
        self.matches.take()
    }
}
