// Generated from crates/odht_tool_core/src/slots.rt by make generate.
//! The occupied slots of a table, a line for each.

use crate::generated::base::bytes::{Borrowed, ByteArray};
use crate::generated::base::hash::HashFn;
use crate::generated::base::swisstable_group_query::is_empty_or_deleted;
use crate::generated::core::answers::write_pair;
use crate::generated::core::digits::write_number;
use crate::generated::core::failure::Failure;
use crate::generated::core::forms::Form;
use crate::generated::core::groups::groups_to;
use crate::generated::core::status::{of_output, Status};
use crate::generated::core::text::Text;
use crate::generated::header::config::Config;
use crate::generated::raw::memory_layout::{Allocation, Entries};
use crate::host::prelude::*;
use std::io::{self, Write};

/// `odht dump --slots` of bytes of a configuration: writes a line for each occupied slot, in slot
/// order, in the texts that the types of key and value have.
pub fn dump_slots<C: Config, O: Write>(bytes: &[u8], output: &mut O) -> Result<Status, Failure>
where
    C::Key: Text,
    C::Value: Text,
{
    let allocation = Allocation::<C, Borrowed<'_>>::from_raw_bytes(Borrowed::new(bytes))
        .map_err(Failure::Refused)?;
    of_output(write_slots(&allocation, output))
}

// Writes a line for each occupied slot.
fn write_slots<C: Config, O: Write>(
    allocation: &Allocation<C, Borrowed<'_>>,
    output: &mut O,
) -> io::Result<()>
where
    C::Key: Text,
    C::Value: Text,
{
    let (control, entries) = allocation.data_slices();
    for slot in 0..entries.len() {
        write_slot::<C, O>(control, &entries, slot, output)?;
    }
    Ok(())
}

// Writes the line of a slot, where it is occupied: its number, its control byte, how many groups a
// search reads, and its pair.
fn write_slot<C: Config, O: Write>(
    control: &[u8],
    entries: &Entries<'_, C::EncodedKey, C::EncodedValue>,
    slot: usize,
    output: &mut O,
) -> io::Result<()>
where
    C::Key: Text,
    C::Value: Text,
{
    let tag = control[slot];
    if is_empty_or_deleted(tag) {
        return Ok(());
    }
    let entry = entries.get(slot);
    let groups = groups_to(C::H::hash(entry.key.as_slice()), slot, entries.len(), None);
    write_numbers(SlotNumbers { slot, tag, groups }, output)?;
    let (key, value) = (C::decode_key(&entry.key), C::decode_value(&entry.value));
    write_pair(&key, &value, output)
}

/// The numbers in the line of a slot.
#[derive(Clone, Copy)]
pub(crate) struct SlotNumbers {
    /// The number of the slot.
    pub slot: usize,
    /// Its control byte.
    pub tag: u8,
    /// How many groups a search reads.
    pub groups: usize,
}

/// Writes the numbers of a slot, each with a tab after it.
#[inline(always)]
pub(crate) fn write_numbers<O: Write>(numbers: SlotNumbers, output: &mut O) -> io::Result<()> {
    write_number(numbers.slot as u64, output)?;
    output.write_all(b"\t")?;
    write_number(u64::from(numbers.tag), output)?;
    output.write_all(b"\t")?;
    write_number(numbers.groups as u64, output)?;
    output.write_all(b"\t")
}
