// Generated from crates/odht_calls/src/view.rt by make generate.
//! Opened tables as a caller in C keeps them, and for every configuration lookups that skip the
//! header.

use crate::generated::calls::status::{status_of, ABSENT, OK};
use crate::generated::tables::bytes::Borrowed;
use crate::generated::tables::config::Config;
use crate::generated::tables::hash::HashFn;
use crate::generated::tables::layout::Lengths;
use crate::generated::tables::lookups::{self, Answers};
use crate::generated::tables::memory_layout::{check_opening_in, parts_in, Header};
use crate::generated::tables::HashTable;

/// The bytes of an opened table, as C keeps them: a pointer and a length. The calls that read a
/// view require that the header and the length of its bytes are accepted, and do not check it.
#[repr(C)]
#[derive(Clone, Copy)]
pub struct View<'a> {
    /// All bytes of the table.
    pub bytes: &'a [u8],
}

/// OK, and `view` is a view of the bytes; or the number of the first error, and `view` is
/// unchanged. Reads the header, the length and the first ten slots.
#[inline(always)]
pub fn open<'a, L: Lengths, H: HashFn>(lengths: L, bytes: &'a [u8], view: &mut View<'a>) -> u32 {
    match check_opening_in::<L, H>(bytes, lengths) {
        Ok(()) => {
            *view = View { bytes };
            OK
        }
        Err(refused) => status_of(&refused),
    }
}

/// The item count in the header of an opened table, whatever its lengths.
#[inline]
pub fn len(view: &View<'_>) -> usize {
    Header::of(view.bytes).item_count()
}

/// The table of a view. Reads none of its bytes.
#[inline(always)]
pub fn table<'a, C: Config>(view: &View<'a>) -> HashTable<C, Borrowed<'a>> {
    HashTable::from_raw_bytes_unchecked(Borrowed::new(view.bytes))
}

/// The value of a key in bytes whose header and length fit.
#[inline(always)]
pub(crate) fn find<'a, L: Lengths, H: HashFn>(
    lengths: L,
    bytes: &'a [u8],
    key: &[u8],
) -> Option<&'a [u8]> {
    parts_in::<L, H>(bytes, lengths).find(key)
}

/// Writes the value of a key of an opened table to `value`. ABSENT leaves `value` unchanged.
#[inline(always)]
pub fn get<C: Config>(
    table: &HashTable<C, Borrowed<'_>>,
    key: &C::Key,
    value: &mut C::Value,
) -> u32 {
    match table.get(key) {
        Some(found) => {
            *value = found;
            OK
        }
        None => ABSENT,
    }
}

/// The arrays of a caller. At the index of a key that is found, its value is put in `values` and 1
/// in `found`; at any other index 0 is put in `found`.
struct Arrays<'v, 'f, V> {
    values: &'v mut [V],
    found: &'f mut [u8],
}

impl<'v, 'f, V> Answers<Option<V>> for Arrays<'v, 'f, V> {
    #[inline(always)]
    fn put(&mut self, index: usize, answer: Option<V>) {
        match answer {
            Some(value) => {
                self.values[index] = value;
                self.found[index] = 1;
            }
            None => self.found[index] = 0,
        }
    }
}

/// Looks up many keys in an opened table: at the index of a key that is found, its value is
/// written to `values` and 1 to `found`; at any other index 0 is written to `found`.
// Not inlined, so that what it calls has one caller for each configuration: only then does the
// compiler keep the first looks of eight keys in one function with their searches, which takes a
// quarter fewer instructions.
#[inline(never)]
pub fn get_all<C: Config>(
    table: &HashTable<C, Borrowed<'_>>,
    keys: &[C::Key],
    values: &mut [C::Value],
    found: &mut [u8],
) -> u32 {
    let raw = table.as_raw();
    let mut arrays = Arrays { values, found };
    lookups::get_all::<C, Arrays<'_, '_, C::Value>>(&raw, keys, &mut arrays);
    OK
}
