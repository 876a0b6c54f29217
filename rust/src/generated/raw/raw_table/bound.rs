// Generated from crates/odht_raw/src/raw_table/bound.rt by make generate.
//! How many groups a search may read, computed only from control bytes.

use super::{slot_count_of, EntryMetadata, GroupProbe, Parts, RawTable};
use crate::generated::raw::bytes::ByteArray;
use crate::generated::raw::error::Error;
use crate::generated::raw::hash::HashFn;
use crate::generated::raw::layout::Lengths;
use crate::generated::raw::swisstable_group_query::late_free;

impl<'a, L: Lengths, H: HashFn> Parts<'a, L, H> {
    /// [`RawTable::searches_within`] of these parts.
    pub fn searches_within(&self, groups: usize) -> bool {
        first_longer(self.controls(), groups).is_none()
    }
}

impl<'a, K: ByteArray, V: ByteArray, H: HashFn> RawTable<'a, K, V, H> {
    /// Whether each home has, among the first `groups` groups of its probe order, a control byte
    /// that counts as free. Then no search in a placed table, of a present or an absent key, reads
    /// more. It reads only control bytes.
    pub fn searches_within(&self, groups: usize) -> bool {
        self.parts().searches_within(groups)
    }
}

/// `SearchTooLong` of the least home from which a search may read more groups than the bound; None
/// without a bound.
pub(crate) fn longer_refusal(control: &[EntryMetadata], groups: Option<usize>) -> Option<Error> {
    let Some(groups) = groups else {
        return None;
    };
    match first_longer(control, groups) {
        Some(home) => Some(Error::SearchTooLong { home, groups }),
        None => None,
    }
}

// The least home from which a search may read more than `groups` groups: none of the control bytes
// in these counts as free. None where no search reads more. At most `groups` reads of sixteen bytes
// a slot, and few where most groups have a free byte.
#[inline(never)]
fn first_longer(control: &[EntryMetadata], groups: usize) -> Option<usize> {
    let slots = slot_count_of(control);
    let mut home = 0;
    while home < slots {
        match homes_within(control, home, groups) {
            Some(count) => home += count,
            None => return Some(home),
        }
    }
    None
}

// From this home and those after it, that many in all, no search reads more than `groups` groups.
// None where one from this home may.
//
// The groups that these searches read begin one slot after the other. So where one has a free
// byte, those that begin up to it have it too; but not behind the last slot, where the mirror may
// differ from what it mirrors.
#[inline]
fn homes_within(control: &[EntryMetadata], home: usize, groups: usize) -> Option<usize> {
    let slots = slot_count_of(control);
    let mut probe = GroupProbe::new(control, slots, home);
    let mut left = groups;
    while left > 0 {
        let start = probe.start();
        if let Some(index) = late_free(probe.read()) {
            return Some(index.min(slots - 1 - start) + 1);
        }
        if probe.is_last() {
            return None;
        }
        probe.advance();
        left -= 1;
    }
    None
}
