// Generated from crates/odht_tool_reads/src/commands/count.rt by make generate.
//! `odht count`: how many items a table file has.

use crate::generated::core::any::AnyShape;
use crate::generated::core::failure::Failure;
use crate::generated::core::found::found_any;
use crate::generated::core::shapes::Hash;
use crate::generated::core::status::{of_output, Status};
use crate::generated::core::stored::StoredTable;
use crate::generated::header::header::Header;
use crate::generated::tool_tables::checks::check_any;
use crate::host::prelude::*;
use std::io::{self, Write};

/// `odht count` of the bytes of a file: writes the label, and how many items the header counts; or
/// fails with the first error of the header and the length. If the file is checked, by a hash
/// function or none and a bound or none, it fails with the first rule that the bytes break, as
/// `check` finds it.
pub fn count_file<O: Write>(
    label: &str,
    bytes: &[u8],
    checked: Option<(Option<Hash>, Option<usize>)>,
    output: &mut O,
) -> Result<Status, Failure> {
    let count = match checked {
        Some((hash, bound)) => count_checked(bytes, hash, bound)?,
        None => count_opened(bytes)?,
    };
    of_output(write_count(label, count, output))
}

// How many items a table has that is checked before.
fn count_checked(bytes: &[u8], hash: Option<Hash>, bound: Option<usize>) -> Result<usize, Failure> {
    let shape = found_any(bytes, hash)?;
    count_any(shape, bytes, bound)
}

// How many items the header counts, if it and the length fit.
fn count_opened(bytes: &[u8]) -> Result<usize, Failure> {
    StoredTable::open(bytes).map_err(Failure::Refused)?;
    Ok(Header::of(bytes).item_count())
}

// How many items a table of this shape has, or the first rule that it breaks.
fn count_any(shape: AnyShape, bytes: &[u8], bound: Option<usize>) -> Result<usize, Failure> {
    match check_any(shape, bytes, bound) {
        Ok(()) => Ok(Header::of(bytes).item_count()),
        Err(error) => Err(Failure::Refused(error)),
    }
}

/// Writes a label, and a count.
pub(crate) fn write_count<O: Write>(label: &str, count: usize, output: &mut O) -> io::Result<()> {
    writeln!(output, "{label}{count}")
}
