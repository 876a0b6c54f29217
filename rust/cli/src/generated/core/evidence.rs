// Generated from crates/odht_tool_core/src/evidence.rt by make generate.
//! What a table shows of the types of its keys and values. A command that adds pairs asks for them
//! where it shows too little.

use crate::generated::core::any::AnyShape;
use crate::generated::core::failure::Failure;
use crate::generated::core::forms::Kinds;
use crate::generated::core::found::other_hash;
use crate::generated::core::plain::{are_plain, plain_of};
use crate::generated::core::shapes::Hash;
use crate::generated::core::stored::StoredTable;
use crate::host::prelude::*;

/// `UnknownKey` or `UnknownValue` where nothing is said of keys or of values, and these bytes, which
/// are of this shape, do not show which type they are of. Bytes whose header or length does not fit
/// are for the check.
pub fn ask_kinds(bytes: &[u8], shape: AnyShape, kinds: Kinds) -> Result<(), Failure> {
    ask_key(bytes, shape, kinds)?;
    ask_value(bytes, kinds)
}

/// The same only of keys.
pub fn ask_key(bytes: &[u8], shape: AnyShape, kinds: Kinds) -> Result<(), Failure> {
    match StoredTable::open(bytes) {
        Ok(table) if kinds.key.is_none() && !shows_key(&table, shape.hash()) => {
            Err(Failure::UnknownKey(table.layout().key_len))
        }
        _ => Ok(()),
    }
}

fn ask_value(bytes: &[u8], kinds: Kinds) -> Result<(), Failure> {
    match StoredTable::open(bytes) {
        Ok(table) if kinds.value.is_none() && !shows_value(&table) => {
            Err(Failure::UnknownValue(table.layout().value_len))
        }
        _ => Ok(()),
    }
}

// Whether the hash function, or the keys, show which type the keys are of.
fn shows_key(table: &StoredTable<'_>, hash: Hash) -> bool {
    let len = table.layout().key_len;
    len == 0
        || is_by_hash(table, hash)
        || (!is_number_len(len) && !are_all(table, Side::Keys, Look::PlainText))
}

// Whether the keys are of the type that new tables of the hash function have: no other one fits the
// table, as all of them fit an empty one, and the keys do not read as another type.
fn is_by_hash(table: &StoredTable<'_>, hash: Hash) -> bool {
    is_key_of_hash(table.layout().key_len, hash)
        && other_hash(table, hash).is_none()
        && !reads_otherwise(table, hash)
}

// Whether new tables of the hash function have keys of that many bytes that are of one type, where
// none is named.
fn is_key_of_hash(len: u8, hash: Hash) -> bool {
    match hash {
        Hash::Fx => is_number_len(len),
        Hash::Unhash => len == 4 || (8 <= len && len <= 32),
        Hash::Xxh64 => false,
    }
}

// Whether the numbers of a table by `fx` read as texts, or as big-endian numbers. Such keys have
// this hash function where it was named.
fn reads_otherwise(table: &StoredTable<'_>, hash: Hash) -> bool {
    match hash {
        Hash::Fx => are_texts(table, Side::Keys) || are_swapped(table, Side::Keys),
        Hash::Unhash | Hash::Xxh64 => false,
    }
}

// Whether numbers have that many bytes.
fn is_number_len(len: u8) -> bool {
    len == 4 || len == 8
}

// Whether the values show which type they are of.
fn shows_value(table: &StoredTable<'_>) -> bool {
    let len = table.layout().value_len;
    if len == 0 {
        return true;
    }
    if is_number_len(len) {
        return are_numbers(table);
    }
    !are_all(table, Side::Values, Look::PlainText)
}

// Whether the values read as numbers, and as nothing else: more than half of them are small enough
// to end with a zero, and they are neither letters nor big-endian numbers.
fn are_numbers(table: &StoredTable<'_>) -> bool {
    !are_all(table, Side::Values, Look::Letters)
        && !are_swapped(table, Side::Values)
        && table.count() / 2 < count_of(table, Side::Values, Look::LastZero)
}

// Whether all keys, or all values, are letters, and not all are short.
fn are_texts(table: &StoredTable<'_>, side: Side) -> bool {
    are_all(table, side, Look::Letters) && !are_all(table, side, Look::Short)
}

// Whether all keys, or all values, begin with a zero, and not all are zeros.
fn are_swapped(table: &StoredTable<'_>, side: Side) -> bool {
    are_all(table, side, Look::FirstZero) && !are_all(table, side, Look::Zeros)
}

/// Keys, or values.
#[derive(Clone, Copy)]
pub(crate) enum Side {
    Keys,
    Values,
}

/// What bytes may look like.
#[derive(Clone, Copy)]
pub(crate) enum Look {
    /// A plain text, with zeros behind it.
    PlainText,
    /// Letters, digits and signs of ASCII, or spaces, with zeros behind them.
    Letters,
    /// At most one byte, with zeros behind it.
    Short,
    /// Zeros alone.
    Zeros,
    /// Bytes of which the first is zero.
    FirstZero,
    /// Bytes of which the last is zero.
    LastZero,
}

impl Look {
    // Whether these bytes look so.
    fn is_of(self, bytes: &[u8]) -> bool {
        let text = plain_of(bytes);
        match self {
            Look::PlainText => are_plain(text),
            Look::Letters => are_letters(text),
            Look::Short => text.len() <= 1,
            Look::Zeros => text.is_empty(),
            Look::FirstZero => bytes.is_empty() || bytes[0] == 0,
            Look::LastZero => text.len() < bytes.len(),
        }
    }
}

// Whether each byte is a letter, a digit or a sign of ASCII, or a space.
fn are_letters(bytes: &[u8]) -> bool {
    bytes.iter().all(|byte| is_letter(*byte))
}

// A letter, a digit or a sign of ASCII, or a space.
fn is_letter(byte: u8) -> bool {
    32 <= byte && byte <= 126
}

// Whether all keys, or all values, look so.
fn are_all(table: &StoredTable<'_>, side: Side, look: Look) -> bool {
    let mut are_all = true;
    for slot in 0..table.slot_count() {
        let is_so = is_free_or(table, side, look, slot);
        if !is_so {
            are_all = false;
        }
    }
    are_all
}

// Whether a slot is free, or its key or value looks so.
fn is_free_or(table: &StoredTable<'_>, side: Side, look: Look, slot: usize) -> bool {
    match (table.pair(slot), side) {
        (Some((key, _)), Side::Keys) => look.is_of(key),
        (Some((_, value)), Side::Values) => look.is_of(value),
        (None, _) => true,
    }
}

// How many keys, or values, look so.
fn count_of(table: &StoredTable<'_>, side: Side, look: Look) -> usize {
    let mut count = 0_usize;
    for slot in 0..table.slot_count() {
        let is_so = is_occupied_as(table, side, look, slot);
        if is_so {
            count += 1;
        }
    }
    count
}

// Whether a slot is occupied, and its key or value looks so.
fn is_occupied_as(table: &StoredTable<'_>, side: Side, look: Look, slot: usize) -> bool {
    match (table.pair(slot), side) {
        (Some((key, _)), Side::Keys) => look.is_of(key),
        (Some((_, value)), Side::Values) => look.is_of(value),
        (None, _) => false,
    }
}
