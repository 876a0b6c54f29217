// Generated from crates/odht_calls/src/any/pieces.rt by make generate.
//! Keys, or values, that lie one after the other in bytes.

use crate::generated::tables::items::EncodedItems;
use crate::generated::tables::layout::Layout;

/// The first keys and values of bytes in which they lie one after the other.
pub(crate) struct Pieces<'a> {
    pub(crate) layout: Layout,
    pub(crate) count: usize,
    pub(crate) keys: &'a [u8],
    pub(crate) values: &'a [u8],
}

impl<'a> EncodedItems for Pieces<'a> {
    type Key = &'a [u8];

    type Value = &'a [u8];

    #[inline(always)]
    fn count(&self) -> usize {
        self.count
    }

    #[inline(always)]
    fn fits(&self, _index: usize) -> bool {
        true
    }

    #[inline(always)]
    fn key(&self, index: usize) -> &'a [u8] {
        let (key, _) = self.pair(index);
        key
    }

    #[inline(always)]
    fn pair(&self, index: usize) -> (&'a [u8], &'a [u8]) {
        let key = piece(self.keys, self.layout.key_len, index);
        (key, piece(self.values, self.layout.value_len, index))
    }

    #[inline(always)]
    fn key_bytes<'k>(key: &'k &'a [u8]) -> &'k [u8] {
        key
    }

    #[inline(always)]
    fn value_bytes<'v>(value: &'v &'a [u8]) -> &'v [u8] {
        value
    }
}

// Whether the bytes are that many keys, and that many values.
pub(crate) fn are_pieces(layout: Layout, count: usize, keys: &[u8], values: &[u8]) -> bool {
    has_pieces(keys, layout.key_len, count) && has_pieces(values, layout.value_len, count)
}

fn has_pieces(bytes: &[u8], len: u8, count: usize) -> bool {
    let found = bytes.len();
    match count.checked_mul(len as usize) {
        Some(all) => found == all,
        None => false,
    }
}

// How many of the first of `count` pairs decide what all of them leave. Where neither keys nor
// values have bytes all pairs are equal, and no bytes bound the count, so the first decides.
pub(crate) fn deciding_pairs(layout: Layout, count: usize) -> usize {
    if layout.key_len == 0 && layout.value_len == 0 && count > 1 {
        return 1;
    }
    count
}

// Piece `index` of bytes that have it.
#[inline]
pub(crate) fn piece(bytes: &[u8], len: u8, index: usize) -> &[u8] {
    let len = len as usize;
    let at = index * len;
    &bytes[at..at + len]
}

// Writes piece `index` of bytes that have it.
#[inline]
pub(crate) fn put_piece(bytes: &mut [u8], len: u8, index: usize, piece: &[u8]) {
    let len = len as usize;
    let at = index * len;
    bytes[at..at + len].copy_from_slice(piece);
}

// Writes the answer of a lookup: piece `index` of the values where there is a value, and whether
// there is one.
pub(crate) fn put_answer(
    values: &mut [u8],
    found: &mut [u8],
    len: u8,
    index: usize,
    answer: Option<&[u8]>,
) {
    match answer {
        Some(value) => {
            put_piece(values, len, index, value);
            found[index] = 1;
        }
        None => found[index] = 0,
    }
}
