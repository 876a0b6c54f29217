// Generated from crates/odht_base/src/swisstable_group_query/lane_set.rt by make generate.
//! Sets of indices of the sixteen lanes of a vector, as the bits of a short word.

use super::IndexSet;

/// A set of indices below sixteen, to be taken in turn from the least on.
///
/// In a contract it is the list of the indices that are left, rising.
// A mask of sixteen lanes is sixteen bits in a register. In a word of 64 bits the compiler cuts it
// to sixteen again, with each group that has a match.
pub(super) struct LaneSet {
    bits: u16,
}

impl LaneSet {
    /// The indices of the bits that are set, from the lowest on. There are sixteen bits.
    #[inline(always)]
    pub(super) fn of_bits(bits: u64) -> LaneSet {
        LaneSet { bits: bits as u16 }
    }

    /// The least index that is left; None where none is.
    #[inline(always)]
    pub(super) fn first(&self) -> Option<usize> {
        IndexSet::of_bits(self.bits as u64).first()
    }

    /// Drops the least index that is left, if there is one.
    #[inline(always)]
    pub(super) fn drop_first(&mut self) {
        self.bits &= self.bits.wrapping_sub(1);
    }

    /// Takes the least index that is left: returns and drops it; None once all were taken.
    #[inline(always)]
    pub(super) fn take(&mut self) -> Option<usize> {
        let index = self.first()?;
        self.drop_first();
        Some(index)
    }
}
