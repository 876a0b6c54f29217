// Generated from crates/odht_tool_core/src/dynamic_slots.rt by make generate.
//! The occupied slots of a table whose lengths are numbers, each on a line: as texts, or as an
//! object of JSON.

use crate::generated::base::hash::HashFn;
use crate::generated::base::swisstable_group_query::is_empty_or_deleted;
use crate::generated::core::groups::groups_to;
use crate::generated::core::json::slots::write_slot_object;
use crate::generated::core::slots::{write_numbers, SlotNumbers};
use crate::generated::core::typed::Texts;
use crate::generated::raw::raw_table::DynRawTable;
use crate::host::prelude::*;
use std::io::{self, Write};

/// Writes a line for each occupied slot, in slot order: its number, its control byte, how many
/// groups a search reads, and its pair.
pub fn write_slots<H: HashFn, O: Write>(
    texts: Texts,
    is_json: bool,
    table: &DynRawTable<'_, H>,
    output: &mut O,
) -> io::Result<()> {
    for slot in 0..table.len() {
        write_dynamic_slot(texts, is_json, table, slot, output)?;
    }
    Ok(())
}

// Writes the line of a slot, where it is occupied.
fn write_dynamic_slot<H: HashFn, O: Write>(
    texts: Texts,
    is_json: bool,
    table: &DynRawTable<'_, H>,
    slot: usize,
    output: &mut O,
) -> io::Result<()> {
    let slots = table.len();
    let tag = table.control(slot);
    if is_empty_or_deleted(tag) {
        return Ok(());
    }
    let (key, value) = (table.key(slot), table.value(slot));
    let groups = groups_to(H::hash(key), slot, slots, None);
    let numbers = SlotNumbers { slot, tag, groups };
    if is_json {
        write_slot_object(texts, numbers, key, value, output)
    } else {
        write_slot_text(texts, numbers, key, value, output)
    }
}

// Writes the line of these numbers of a slot and of its pair.
#[inline(always)]
fn write_slot_text<O: Write>(
    texts: Texts,
    numbers: SlotNumbers,
    key: &[u8],
    value: &[u8],
    output: &mut O,
) -> io::Result<()> {
    write_numbers(numbers, output)?;
    texts.write_pair(key, value, output)
}
