// Generated from crates/odht_tool_writes/src/warnings.rt by make generate.
//! The line of a table that was made and has searches so long that `odht check` rejects it.
use crate::generated::core::advice::Advice;
use crate::generated::core::stored::StoredTable;
use crate::generated::raw::memory_layout::DEFAULT_GROUPS;
use crate::generated::tool_tables::trials::advice_of;
use crate::host::prelude::*;
use crate::shim::Global;
use std::io::{self, Write};

/// Writes a line where a search in the table of these bytes, which the file of this name has, may
/// read more groups than `odht check` allows: with what makes searches short, if that was found.
pub fn warn_of_long<E: Write>(alloc: Global, name: &str, bytes: &[u8], errors: &mut E) {
    if is_too_long(bytes) {
        // Where memory is short for a trial, nothing is advised.
        let advice = advice_of(alloc, bytes).unwrap_or(None);
        // A line that cannot be written is no failure.
        let _ = write_long(name, advice, errors);
    }
}

// Whether a search for an absent key may read more groups than `odht check` allows.
fn is_too_long(bytes: &[u8]) -> bool {
    match StoredTable::open(bytes) {
        Ok(table) => table.longest_miss(Some(DEFAULT_GROUPS)) > DEFAULT_GROUPS,
        Err(_) => false,
    }
}

// Writes the line.
fn write_long<E: Write>(name: &str, advice: Option<Advice>, errors: &mut E) -> io::Result<()> {
    write!(
        errors,
        "odht: {name}: searches may read more than {DEFAULT_GROUPS} groups, and `odht check` rejects it"
    )?;
    match advice {
        Some(advice) => {
            let options = advice.options(true);
            writeln!(errors, ": try odht rebuild {name} {options}")
        }
        None => errors.write_all(b"\n"),
    }
}
