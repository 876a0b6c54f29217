// Generated from crates/odht_base/src/swisstable_group_query/index_set.rt by make generate.
//! Sets of indices below 64, as the bits of a word.

/// A set of indices below 64, to be taken in turn from the least on.
///
/// In a contract it is the list of the indices that are left, rising.
pub struct IndexSet {
    bits: u64,
}

impl IndexSet {
    /// How many indices there are: those below 64.
    pub const CAPACITY: usize = 64;

    /// No index.
    #[inline(always)]
    pub fn empty() -> IndexSet {
        IndexSet { bits: 0 }
    }

    /// The indices of the bits that are set, from the lowest on.
    #[inline(always)]
    pub fn of_bits(bits: u64) -> IndexSet {
        IndexSet { bits }
    }

    /// Whether no index is left.
    #[inline(always)]
    pub fn is_empty(&self) -> bool {
        self.bits == 0
    }

    /// The least index that is left; None where none is.
    #[inline(always)]
    pub fn first(&self) -> Option<usize> {
        if self.bits == 0 {
            return None;
        }
        Some(self.bits.trailing_zeros() as usize)
    }

    /// Drops the least index that is left, if there is one.
    #[inline(always)]
    pub fn drop_first(&mut self) {
        self.bits &= self.bits.wrapping_sub(1);
    }

    /// Takes the least index that is left: returns and drops it; None once all were taken.
    #[inline(always)]
    pub fn take(&mut self) -> Option<usize> {
        let index = self.first()?;
        self.drop_first();
        Some(index)
    }
}
