// Generated from crates/odht_tool_core/src/find.rt by make generate.
//! `odht find`: the tables inside a file.

use crate::generated::base::load::max_item_count_for;
use crate::generated::core::failure::Failure;
use crate::generated::core::front::front_of;
use crate::generated::core::places::place_of;
use crate::generated::core::report::{write_among, Field, Value, Words};
use crate::generated::core::shapes::Hash;
use crate::generated::core::stored::StoredTable;
use crate::generated::header::header::Header;
use crate::host::prelude::*;
use crate::shim::Global;
use std::io::Write;

/// The first byte of each table.
const FIRST: u8 = b'O';

/// What some bytes begin with.
#[derive(Clone, Copy)]
enum Look {
    /// A table of that many bytes.
    Table(usize),
    /// A header for that many slots, with which the control bytes do not fit.
    False(usize),
    /// No header.
    Nothing,
}

/// The offsets of the tables inside these bytes, in their order. After a table the search goes on
/// behind it.
///
/// Bytes with which no header begins are passed, sixteen at once. Where a header fits, its control
/// bytes and the keys of its occupied slots are read, up to the first misfit of these. The slots
/// of the headers whose control bytes do not fit are counted, and where they become more than the
/// file has bytes, which no file has whose headers do not overlap, it is `Forged`, and only there.
pub fn find_tables(alloc: Global, bytes: &[u8]) -> Result<Vec<usize>, Failure> {
    let mut tables = crate::host::lists::empty(alloc);
    let mut false_slots = 0_usize;
    let mut at = 0_usize;
    while at < bytes.len() {
        match look_at(bytes, at) {
            Look::Table(len) => {
                add(&mut tables, at)?;
                at += len;
            }
            Look::False(slots) => {
                false_slots = false_slots.saturating_add(slots);
                if bytes.len() < false_slots {
                    return Err(Failure::Forged);
                }
                at = next_first(bytes, at + 1);
            }
            Look::Nothing => at = next_first(bytes, at + 1),
        }
    }
    Ok(tables)
}

/// The first place from this one on of a byte with which a table may begin, or the end.
pub(crate) fn next_first(bytes: &[u8], from: usize) -> usize {
    from + place_of(&bytes[from..], FIRST)
}

// Adds an offset.
fn add(tables: &mut Vec<usize>, at: usize) -> Result<(), Failure> {
    match tables.try_push(at) {
        Ok(()) => Ok(()),
        Err(_) => Err(Failure::Memory),
    }
}

/// Writes the line of the table that begins at this offset of its file, or its object of JSON: the offset, its
/// length, the sizes of keys and values, the item count, the slot count, the load in percent, the
/// hash functions that its control bytes fit, and what the check says of it. There are tabs between
/// them in the line.
pub fn write_row<O: Write>(
    offset: u128,
    table: &[u8],
    checked: &str,
    is_json: bool,
    output: &mut O,
) -> Result<(), Failure> {
    let parts = StoredTable::open(table).map_err(Failure::Refused)?;
    let report = report_of(offset, table, &parts, checked);
    write_among(&report, is_json, output).map_err(Failure::Output)
}

// What is told of a table.
fn report_of<'a>(
    offset: u128,
    table: &[u8],
    parts: &StoredTable<'_>,
    checked: &'a str,
) -> [Field<'a>; 9] {
    let header = Header::of(table);
    let (items, slots) = (header.item_count(), header.slot_count());
    let load = items as u128 * 100 / (slots as u128).max(1);
    [
        column("offset", offset),
        column("bytes", table.len() as u128),
        column("key_bytes", header.key_size() as u128),
        column("value_bytes", header.value_size() as u128),
        column("items", items as u128),
        column("slots", slots as u128),
        column("load_percent", load),
        word("hash", fits_word(parts), "\t"),
        word("check", checked, "\n"),
    ]
}

// A field of a number, behind which a tab stands in the line.
fn column(name: &'static str, number: u128) -> Field<'static> {
    Field { name, value: Value::Number(number), words: Words::between("", "\t") }
}

// A field of a word, and what stands behind it in the line.
fn word<'a>(name: &'static str, word: &'a str, end: &'static str) -> Field<'a> {
    Field { name, value: Value::Text(word), words: Words::between("", end) }
}

/// The names of the hash functions that all control bytes agree with, with commas between them.
fn fits_word(table: &StoredTable<'_>) -> &'static str {
    let has_xxh64 = table.agrees(Hash::Xxh64);
    match (table.agrees(Hash::Fx), table.agrees(Hash::Unhash), has_xxh64) {
        (true, true, true) => "fx,unhash,xxh64",
        (true, true, false) => "fx,unhash",
        (true, false, true) => "fx,xxh64",
        (true, false, false) => "fx",
        (false, true, true) => "unhash,xxh64",
        (false, true, false) => "unhash",
        (false, false, true) => "xxh64",
        (false, false, false) => "none",
    }
}

// What begins at this byte.
fn look_at(bytes: &[u8], at: usize) -> Look {
    if bytes[at] == FIRST {
        look_from(&bytes[at..])
    } else {
        Look::Nothing
    }
}

// What these bytes begin with.
fn look_from(bytes: &[u8]) -> Look {
    let Some(table) = header_front(bytes) else {
        return Look::Nothing;
    };
    if has_controls(table) {
        Look::Table(table.len())
    } else {
        Look::False(Header::of(bytes).slot_count())
    }
}

// The bytes of the table that these begin with, by a header of which nothing is rejected.
fn header_front(bytes: &[u8]) -> Option<&[u8]> {
    let Ok(table) = front_of(bytes) else {
        return None;
    };
    if has_fields(&Header::of(bytes)) {
        Some(table)
    } else {
        None
    }
}

// Whether nothing is rejected of the load factor, the padding, and the item count as the load
// factor allows it.
fn has_fields(header: &Header<'_>) -> bool {
    header.check_load_factor().is_ok() && header.check_padding().is_ok() && has_room(header)
}

// Whether the header's item count is at most the maximum.
fn has_room(header: &Header<'_>) -> bool {
    let max = max_item_count_for(header.slot_count(), header.max_load_factor());
    header.item_count() <= max
}

// Whether the control bytes of a table fit its header and its keys.
fn has_controls(bytes: &[u8]) -> bool {
    match StoredTable::open(bytes) {
        Ok(table) => table.has_mirror() && has_count(bytes, &table) && table.hash().is_some(),
        Err(_) => false,
    }
}

// Whether as many slots are occupied as the header says.
fn has_count(bytes: &[u8], table: &StoredTable<'_>) -> bool {
    table.count() == Header::of(bytes).item_count()
}
