// Generated from crates/odht_raw/src/raw_table/orders.rt by make generate.
//! The calls that look for an order of inserts, and the occupied slots listed as ones that wait.

use super::insert_order::{place_near, place_others};
use super::linear_order::order_by_passes;
use super::{EntryMetadata, Parts, RawTable};
use crate::generated::raw::bytes::ByteArray;
use crate::generated::raw::hash::HashFn;
use crate::generated::raw::layout::Lengths;
use crate::generated::raw::swisstable_group_query::{free_and_occupied, IndexSet};

// How many numbers of scratch a slot takes: the pass of the slot; and how far the walk of the home
// with its number is, in two numbers.
const SCRATCH_PER_SLOT: usize = 3;

impl<'a, K: ByteArray, V: ByteArray, H: HashFn> RawTable<'a, K, V, H> {
    /// Returns whether some list of inserts, growths included, makes the table of these parts
    /// (`IsMade`). They have no load factor, and the result is the same for each. If so, `out`
    /// lists the occupied slots in an insert order: their pairs, placed in this order into an empty
    /// table with the same slot count, give these parts. Otherwise the numbers in `out` have no
    /// meaning.
    ///
    /// The parts must be those of a valid table, and the length of `out` its number of pairs. The
    /// call allocates nothing. It makes at most `n + 1` passes over the pairs, if `n` slots must be
    /// listed after one with a higher index.
    pub fn insert_order(&self, out: &mut [usize]) -> bool {
        self.parts().insert_order(out)
    }

    /// Returns the length of the scratch that `insert_order_with` needs: three numbers for each
    /// slot.
    #[inline]
    pub fn insert_order_scratch(&self) -> usize {
        self.parts().insert_order_scratch()
    }

    /// Like `insert_order`, for untrusted tables: it uses `scratch` as working memory, and returns
    /// the same result. `scratch` has at least the length that `insert_order_scratch` returns, and
    /// may contain any numbers. With a shorter one the call does what `insert_order` does, in the
    /// same time. The clause states that `out` lists an insert order. That it is the same one is
    /// tested.
    ///
    /// The call allocates nothing. Its time is proportional to the number of slots, and to the
    /// groups that the longest search of each home reads: with a bound of `g` groups, to `g` times
    /// the slots. Tests check that it does not end by a call of `insert_order`; the contract does
    /// not state it.
    pub fn insert_order_with(&self, out: &mut [usize], scratch: &mut [usize]) -> bool {
        self.parts().insert_order_with(out, scratch)
    }
}

impl<'a, L: Lengths, H: HashFn> Parts<'a, L, H> {
    /// [`RawTable::insert_order`] of these parts.
    pub fn insert_order(&self, out: &mut [usize]) -> bool {
        list_occupied(self.controls(), self.len(), out);
        let near = place_near(self, out);
        if near == out.len() {
            return true;
        }
        place_others(self, out, near)
    }

    /// Returns the length of the scratch that `insert_order_with` needs: three numbers for each
    /// slot.
    #[inline]
    pub fn insert_order_scratch(&self) -> usize {
        self.len().saturating_mul(SCRATCH_PER_SLOT)
    }

    /// [`RawTable::insert_order_with`] of these parts.
    pub fn insert_order_with(&self, out: &mut [usize], scratch: &mut [usize]) -> bool {
        let slots = self.len();
        if scratch.len() / SCRATCH_PER_SLOT < slots {
            return self.insert_order(out);
        }
        let (passes, rest) = scratch.split_at_mut(slots);
        let (positions, rest) = rest.split_at_mut(slots);
        let (lasts, _) = rest.split_at_mut(slots);
        order_by_passes(self, out, passes, positions, lasts)
    }
}

/// What is added to a slot that waits to be placed. It is above each slot.
pub(crate) const WAITING: usize = 1 << 63;

/// Lists the occupied slots, as many as `out` has room for, each as one that waits.
// The marks of a span tell where they are, so that free slots take no step each.
pub(crate) fn list_occupied(control: &[EntryMetadata], slot_count: usize, out: &mut [usize]) {
    let mut listed = 0;
    let mut start = 0;
    while start < slot_count {
        let size = (slot_count - start).min(IndexSet::CAPACITY);
        let (_, others) = free_and_occupied(&control[start..start + size]);
        listed = list_marked(start, others, out, listed);
        start += size;
    }
}

// Lists the slots that are marked from `start` on, each as one that waits, behind the first
// `listed` numbers, as far as there is room. Returns how many numbers are listed then.
#[inline(always)]
fn list_marked(start: usize, marks: IndexSet, out: &mut [usize], listed: usize) -> usize {
    let mut marks = marks;
    let mut listed = listed;
    while let Some(index) = marks.take() {
        if listed < out.len() {
            out[listed] = WAITING + (start + index);
            listed += 1;
        }
    }
    listed
}
