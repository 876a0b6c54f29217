// Generated from crates/odht_tool_reads/src/positions/counts.rt by make generate.
//! `odht count` of a regular file that is read by position: its header, and no slot.

use super::read_start;
use crate::generated::core::failure::Failure;
use crate::generated::core::status::{of_output, Status};
use crate::generated::reads::commands::count::write_count;
use crate::generated::tables::memory_layout::Header;
use crate::generated::tables::read_at::ReadAt;
use crate::host::prelude::*;
use std::io::Write;

/// `odht count` of a source of that many bytes: of the table at the offset, or of all bytes. Writes
/// the label, and how many items the header counts. None where the header and the length do not
/// fit, or a read failed: nothing was written then, and reading all bytes says why.
///
/// Over any source, for any list of bytes that it gives in each read: what is written is what
/// [`count_file`](crate::generated::reads::commands::count::count_file) writes of the table in this list, if it does
/// not check it.
pub fn count_at<S: ReadAt, O: Write>(
    source: S,
    len: usize,
    offset: Option<usize>,
    label: &str,
    output: &mut O,
) -> Result<Option<Status>, Failure> {
    let Some(count) = stated_count(&source, len, offset) else {
        return Ok(None);
    };
    let status = of_output(write_count(label, count, output))?;
    Ok(Some(status))
}

// How many items the header of the table counts, if it and the length fit.
fn stated_count<S: ReadAt>(source: &S, len: usize, offset: Option<usize>) -> Option<usize> {
    let start = read_start(source, len, offset)?;
    let header = Header::of(&start.header);
    match header.check_layout(header.layout(), start.len) {
        Ok(()) => Some(header.item_count()),
        Err(_) => None,
    }
}
