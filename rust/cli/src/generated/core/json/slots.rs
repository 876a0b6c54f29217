// Generated from crates/odht_tool_core/src/json/slots.rt by make generate.
//! Slots as objects of JSON, each on a line.

use crate::generated::core::json::pairs::write_pair_fields;
use crate::generated::core::slots::SlotNumbers;
use crate::generated::core::typed::Texts;
use crate::host::prelude::*;
use std::io::{self, Write};

/// Writes the object of these numbers of a slot and of its pair.
pub(crate) fn write_slot_object<O: Write>(
    texts: Texts,
    numbers: SlotNumbers,
    key: &[u8],
    value: &[u8],
    output: &mut O,
) -> io::Result<()> {
    write_number_fields(numbers, output)?;
    write_pair_fields(texts, key, value, output)
}

// Writes the begin of the object of a slot: its number, its control byte and a number of groups.
fn write_number_fields<O: Write>(numbers: SlotNumbers, output: &mut O) -> io::Result<()> {
    let SlotNumbers { slot, tag, groups } = numbers;
    write!(output, "{{\"slot\":{slot},\"control\":{tag},\"groups\":{groups},")
}
