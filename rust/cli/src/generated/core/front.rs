// Generated from crates/odht_tool_core/src/front.rt by make generate.
//! The table that begins with some bytes, whatever comes after it.

use crate::generated::core::failure::Failure;
use crate::generated::header::error::Error;
use crate::generated::raw::memory_layout::{dynamic_table_len, stated_layout};
use crate::host::prelude::*;

/// The table that begins at this byte of a file and ends where its header says; bytes after it are
/// not looked at. `PastEnd` where the file ends before that byte. Where opening by the header
/// fails, or there are fewer bytes than the header says, all bytes from there on, which opening
/// rejects with the same error.
pub fn table_at(bytes: &[u8], offset: usize) -> Result<&[u8], Failure> {
    let len = bytes.len();
    if len < offset {
        return Err(Failure::PastEnd { offset, len });
    }
    let rest = &bytes[offset..];
    match front_of(rest) {
        Ok(table) => Ok(table),
        Err(_) => Ok(rest),
    }
}

/// Whether these bytes begin with the header of a table, whatever comes after it.
pub fn begins_table(bytes: &[u8]) -> bool {
    match front_of(bytes) {
        Ok(_) | Err(Error::WrongLength { .. }) => true,
        Err(_) => false,
    }
}

/// The table that these bytes begin with. The errors are those of opening by the header, but
/// `WrongLength` only where there are fewer bytes than the header says.
pub fn front_of(bytes: &[u8]) -> Result<&[u8], Error> {
    let layout = stated_layout(bytes)?;
    let len = dynamic_table_len(bytes, layout)?;
    Ok(&bytes[..len])
}
