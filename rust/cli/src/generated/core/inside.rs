// Generated from crates/odht_tool_core/src/inside.rt by make generate.
//! The first table inside a file that begins with other bytes.

use crate::generated::core::failure::Failure;
use crate::generated::core::find::find_tables;
use crate::generated::core::front::front_of;
use crate::generated::header::header::{Header, HEADER_SIZE};
use crate::host::prelude::*;
use crate::shim::Global;
use std::io::{self, Write};

/// The offset of the first table inside the bytes of a file that does not begin with one's tag, if
/// there is one. It takes the time of `find_tables`, and fails as that does.
pub fn first_inside(alloc: Global, bytes: &[u8]) -> Result<Option<usize>, Failure> {
    if !is_foreign(bytes) {
        return Ok(None);
    }
    let tables = find_tables(alloc, bytes)?;
    Ok(tables.as_slice().first().copied())
}

// Whether there are as many bytes as a header has, and the first of them are not the tag.
fn is_foreign(bytes: &[u8]) -> bool {
    bytes.len() >= HEADER_SIZE && Header::of(bytes).check_tag().is_err()
}

/// Whether more bytes come after a table that all bytes begin with.
pub fn is_followed(bytes: &[u8]) -> bool {
    match front_of(bytes) {
        Ok(table) => table.len() < bytes.len(),
        Err(_) => false,
    }
}

/// Writes a line that tells of the table at this offset.
pub fn write_inside<E: Write>(file: &str, offset: usize, errors: &mut E) -> io::Result<()> {
    writeln!(
        errors,
        "odht: {file}: a table is in it at the offset {offset}: try --at {offset}, or `odht find`"
    )
}
