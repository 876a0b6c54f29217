// Generated from crates/odht_tool_reads/src/commands/find.rt by make generate.
//! `odht find`: the tables inside a file.

use crate::generated::core::failure::Failure;
use crate::generated::core::find::{find_tables, write_row};
use crate::generated::core::found::found_any;
use crate::generated::core::front::table_at;
use crate::generated::core::job::Job;
use crate::generated::core::json::write_file_field;
use crate::generated::core::status::Status;
use crate::generated::tables::error::Error;
use crate::generated::tool_tables::checks::check_any;
use crate::host::prelude::*;
use std::io::{self, Write};

/// `odht find` of the bytes of a file: writes a line for each table inside them, or an object of
/// JSON. The offsets are those in the file, whose first bytes may be left out. The status is `NotDone` where there is none. `Forged` where there are headers that
/// overlap, as `find_tables` says.
pub fn find_file<O: Write>(job: &Job<'_>, output: &mut O) -> Result<Status, Failure> {
    let tables = find_tables(job.alloc, job.bytes)?;
    write_found(job, tables.as_slice(), output)?;
    Ok(Status::of(tables.len() > 0))
}

/// Writes a line that tells that no table is in a file.
pub fn write_none<E: Write>(file: &str, errors: &mut E) -> io::Result<()> {
    writeln!(errors, "odht: {file}: no table is in it")
}

// Writes the tables at these offsets, in lines or as an object.
fn write_found<O: Write>(job: &Job<'_>, tables: &[usize], output: &mut O) -> Result<(), Failure> {
    if job.is_json {
        write_object(job, tables, output)
    } else {
        write_tables(job, tables, output)
    }
}

// Writes the object of the file, and of the tables at these offsets.
fn write_object<O: Write>(job: &Job<'_>, tables: &[usize], output: &mut O) -> Result<(), Failure> {
    write_begin(job.file, output).map_err(Failure::Output)?;
    write_tables(job, tables, output)?;
    output.write_all(b"]}\n").map_err(Failure::Output)
}

// Writes what stands before the first table of an object.
fn write_begin<O: Write>(file: &str, output: &mut O) -> io::Result<()> {
    write_file_field(file, output)?;
    output.write_all(b",\"tables\":[")
}

// Writes the tables at these offsets.
fn write_tables<O: Write>(job: &Job<'_>, tables: &[usize], output: &mut O) -> Result<(), Failure> {
    for index in 0..tables.len() {
        write_item(job, tables, index, output)?;
    }
    Ok(())
}

// Writes a table of these, as an object with a comma before it but before the first.
fn write_item<O: Write>(
    job: &Job<'_>,
    tables: &[usize],
    index: usize,
    output: &mut O,
) -> Result<(), Failure> {
    let comma = comma_of(job.is_json, index);
    output.write_all(comma.as_bytes()).map_err(Failure::Output)?;
    write_table(job, tables[index], output)
}

// What stands before a table: a comma between objects.
fn comma_of(is_json: bool, index: usize) -> &'static str {
    if is_json && index > 0 {
        ","
    } else {
        ""
    }
}

// Writes the line or the object of the table at this offset.
fn write_table<O: Write>(job: &Job<'_>, at: usize, output: &mut O) -> Result<(), Failure> {
    let table = table_at(job.bytes, at)?;
    let checked = check_word(table, job.bound);
    let offset = job.at.unwrap_or(0) as u128 + at as u128;
    write_row(offset, table, checked, job.is_json, output)
}

// What the check says of a table; `-` where its control bytes fit no hash function.
fn check_word(table: &[u8], bound: Option<usize>) -> &'static str {
    let Ok(shape) = found_any(table, None) else {
        return "-";
    };
    match check_any(shape, table, bound) {
        Ok(()) => "valid",
        Err(Error::SearchTooLong { .. }) => "long",
        Err(_) => "rejected",
    }
}
