// Generated from crates/odht_raw/src/raw_table/plain.rt by make generate.
//! The search slot by slot along the probe order, and find and insert by it: the reference forms
//! of the searches by groups. They are the reference of the tests; no call of the library uses
//! them.

use super::parts::read_parts;
use super::probe_seq::probed_slot;
use super::writes::insert_at;
use super::{is_empty_or_deleted, slot_count_of, tag_of, Entries, EntryMetadata, Search};
use crate::generated::raw::bytes::ByteArray;
use crate::generated::raw::error::Error;
use crate::generated::raw::hash::HashFn;
use crate::generated::raw::layout::Fixed;

/// The value stored with the key, searched for slot by slot along the probe order.
///
/// On the parts of a placed table it is the map's result. On any parts it is a value that is
/// stored with an equal key.
pub fn plain_find<K: ByteArray, V: ByteArray, H: HashFn>(
    control: &[EntryMetadata],
    entries: &Entries<'_, K, V>,
    key: &K,
) -> Option<V> {
    let hash = H::hash(key.as_slice());
    match plain_search::<K, V, H>(control, entries, key, hash) {
        Search::Found(slot) => Some(entries.get(slot).value),
        Search::Free(_) => None,
        Search::Neither => None,
    }
}

/// Inserts a pair, and returns the former value of the key. It overwrites the value that is stored
/// with the key, or writes the pair into the first free slot of the key's probe order: entry, tag,
/// and for a slot below 16 the mirror. There is no maximum, since the parts have no item count.
///
/// On the parts of a placed table it leaves the parts of the table with the pair placed. It returns
/// `Full`, with nothing changed, exactly if each slot is occupied and none has the key.
///
/// On any parts it overwrites one value that is stored with an equal key, or writes one entry and
/// its tag into a slot that counted as free. No other byte changes. It returns `Full` only if each
/// slot counts as occupied and a search slot by slot can end without the key.
pub fn plain_insert<K: ByteArray, V: ByteArray, H: HashFn>(
    control: &mut [EntryMetadata],
    entries: &mut [u8],
    key: K,
    value: V,
) -> Result<Option<V>, Error> {
    let slots = slot_count_of(control);
    let hash = H::hash(key.as_slice());
    let stored: Entries<'_, K, V> = Entries::new(entries, slots);
    let end = plain_search::<K, V, H>(control, &stored, &key, hash);
    let lengths: Fixed<K, V> = Fixed::new();
    let parts = read_parts::<Fixed<K, V>, H>(control, entries, slots, lengths);
    let former = parts.typed_value_at(end);
    let (key, value) = (key.as_slice(), value.as_slice());
    let end = (end, tag_of(hash));
    insert_at::<Fixed<K, V>, H, V>(control, entries, lengths, key, value, end, former)
}

// Searches for the key with this hash slot by slot along its probe order, and stops at the first
// slot that is free or holds it.
#[inline]
fn plain_search<K: ByteArray, V: ByteArray, H: HashFn>(
    control: &[EntryMetadata],
    entries: &Entries<'_, K, V>,
    key: &K,
    hash: u32,
) -> Search {
    let slots = entries.len();
    let home = hash as usize & (slots - 1);
    for position in 0..slots {
        let slot = probed_slot(home, position, slots);
        if is_empty_or_deleted(control[slot]) {
            return Search::Free(slot);
        }
        if entries.is_at(slot, key) {
            return Search::Found(slot);
        }
    }
    Search::Neither
}
