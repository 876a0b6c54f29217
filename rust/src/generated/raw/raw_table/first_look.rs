// Generated from crates/odht_raw/src/raw_table/first_look.rt by make generate.
//! The first look of a search. To look up many keys, take the first looks of several keys before
//! the first search ends: then their memory accesses overlap. Inserts of several keys look up their
//! slots ahead for the same reason.

use super::group_search::{search_next_groups, search_stored};
use super::{is_empty_or_deleted, tag_of, Parts, RawTable, Scan, Search};
use crate::generated::raw::bytes::ByteArray;
use crate::generated::raw::hash::HashFn;
use crate::generated::raw::layout::Lengths;
use crate::generated::raw::swisstable_group_query::{
    lanes, Group, GroupQuery, REFERENCE_GROUP_SIZE,
};

/// The hash of a key, and what the group of control bytes at its home slot has: the matches of the
/// tag, and the first byte that counts as free. It is for the table and the key of which it was
/// taken, and for no others.
pub struct FirstLook {
    hash: u32,
    group: lanes::GroupQuery,
}

impl<'a, L: Lengths, H: HashFn> Parts<'a, L, H> {
    /// [`RawTable::first_look`] of a key that is given as bytes.
    #[inline(always)]
    pub fn first_look(&self, key: &[u8]) -> FirstLook {
        let mask = self.len() - 1;
        let hash = H::hash(key);
        let home = hash as usize & mask;
        let control = self.controls();
        let bytes = &index!(control[home..home + REFERENCE_GROUP_SIZE], "AreWhole H.MIN_LEN");
        FirstLook { hash, group: lanes::GroupQuery::of(bytes, tag_of(hash)) }
    }

    /// [`RawTable::find_from`] of a key that is given as bytes.
    // The first group is not looked at by the function for later ones: keys in a near cache took
    // up to a tenth longer.
    #[inline(always)]
    pub fn find_from(&self, look: FirstLook, key: &[u8]) -> Option<&'a [u8]> {
        let mask = self.len() - 1;
        let home = look.hash as usize & mask;
        let FirstLook { hash, mut group } = look;
        while let Some(index) = group.first_match() {
            let slot = (home + index) & mask;
            if self.has_key(slot, key) {
                return Some(self.value(slot));
            }
            group.drop_match();
        }
        if group.any_empty() {
            return None;
        }
        let stored = self.stored();
        self.value_at(search_next_groups::<L, H>(self.controls(), &stored, key, hash))
    }

    /// The hash of a key, and the slot where a pair with the key is placed, where the first group
    /// search at its home slot finds it; else the slot count: where a key may have to be compared,
    /// or where none of these control bytes counts as free.
    ///
    /// The clause says what such a slot is, not when there is one: the slot count would always be
    /// right, and slower. No entry is read, so the calls for several keys do not depend on one
    /// another.
    #[inline(always)]
    pub(crate) fn expected_slot<Q: Group>(&self, key: &[u8]) -> (u32, usize) {
        let slots = self.len();
        let control = self.controls();
        let mask = slots - 1;
        let hash = H::hash(key);
        let home = hash as usize & mask;
        let group = Q::of(&control[home..home + Q::SIZE], tag_of(hash));
        if group.first_match().is_some() {
            return (hash, slots);
        }
        match group.first_empty() {
            Some(index) => (hash, (home + index) & mask),
            None => (hash, slots),
        }
    }

    /// Where the search for a key with this hash ends, and the key's tag. It was expected to end at
    /// this slot. If there is room and the slot still counts as free, it ends there. Otherwise the
    /// whole search runs: without room, only it finds what comes before the end.
    #[inline(always)]
    pub(crate) fn expected_end(
        &self,
        key: &[u8],
        hash: u32,
        slot: usize,
        room: usize,
    ) -> (Search, u8) {
        let control = self.controls();
        if room > 0 && slot < self.len() && is_empty_or_deleted(control[slot]) {
            return (Search::Free(slot), tag_of(hash));
        }
        (self.whole_search(key, hash), tag_of(hash))
    }

    // Where the search for a key with this hash ends. It is not inlined: where a key is placed as
    // expected, this is not called.
    #[inline(never)]
    fn whole_search(&self, key: &[u8], hash: u32) -> Search {
        let mut scan = Scan::new(self.controls(), self.len());
        let stored = self.stored();
        search_stored::<L, H, GroupQuery>(&mut scan, &stored, key, hash)
    }
}

impl<'a, K: ByteArray, V: ByteArray, H: HashFn> RawTable<'a, K, V, H> {
    /// Returns the first look of the search for a key, from which [`RawTable::find_from`]
    /// continues. It hashes the key and reads one group of control bytes, and no entry.
    #[inline(always)]
    pub fn first_look(&self, key: &K) -> FirstLook {
        self.parts().first_look(key.as_slice())
    }

    /// Returns the value of the key, or `None`. `look` must be what [`RawTable::first_look`]
    /// returned for this key in this table. On the parts of a placed table the result is that of
    /// [`RawTable::find`], on any parts a value that is stored with exactly this key.
    ///
    /// It compares the matches of the look in turn. If none has the key and the group has no free
    /// byte, the search continues with the second group.
    #[inline(always)]
    pub fn find_from(&self, look: FirstLook, key: &K) -> Option<V> {
        match self.parts().find_from(look, key.as_slice()) {
            Some(value) => Some(V::from_slice(value)),
            None => None,
        }
    }
}
