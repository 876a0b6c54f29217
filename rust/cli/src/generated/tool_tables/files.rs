// Generated from crates/odht_tool_tables/src/files.rt by make generate.
//! The bytes of a file, and the line that reports its failure.

use crate::generated::core::arguments::is_stream;
use crate::generated::core::failure::Failure;
use crate::generated::core::files::{read_file, read_input, read_table_file, read_table_input};
use crate::generated::core::status::Status;
use crate::generated::core::tags::{read_tagged_file, read_tagged_input, Tagged};
use crate::host::prelude::*;
use crate::host::rt::Files;
use std::io::{BufRead, ErrorKind, Write};

/// All bytes of the file, or of standard input where the name stands for that. An error where they
/// cannot be read, or where memory is lacking.
pub fn read_bytes<R: Files + AllocGlobal, I: BufRead>(
    rt: &R,
    file: &str,
    input: &mut I,
) -> Result<Vec<u8>, Failure> {
    if is_stream(file) {
        read_input(rt.alloc(), input)
    } else {
        read_file(rt, file)
    }
}

/// The bytes of a file that is to have a table at this offset, as
/// [`read_table_file`](odht_tool_core::files::read_table_file) reads them, or of standard input.
pub fn read_table_bytes<R: Files + AllocGlobal, I: BufRead>(
    rt: &R,
    file: &str,
    offset: usize,
    input: &mut I,
) -> Result<Vec<u8>, Failure> {
    if is_stream(file) {
        read_table_input(rt.alloc(), input, offset)
    } else {
        read_table_file(rt, file, offset)
    }
}

/// The bytes of the file from the first tag of a table on, or of standard input.
pub fn read_tagged<R: Files + AllocGlobal, I: BufRead>(
    rt: &R,
    file: &str,
    input: &mut I,
) -> Result<Tagged, Failure> {
    if is_stream(file) {
        read_tagged_input(rt, input)
    } else {
        read_tagged_file(rt, file)
    }
}

/// How a command ends that did this with the file of this name. A failure is `NotDone`, and is
/// reported by a line on `errors`, but where nobody reads the output any more.
pub fn finish<E: Write>(file: &str, done: Result<Status, Failure>, errors: &mut E) -> Status {
    finish_as(file, done, Status::NotDone, errors)
}

/// The same where a failure has the status `failed`.
pub fn finish_as<E: Write>(
    file: &str,
    done: Result<Status, Failure>,
    failed: Status,
    errors: &mut E,
) -> Status {
    match done {
        Ok(status) => status,
        Err(Failure::Output(error)) if error.kind() == ErrorKind::BrokenPipe => failed,
        Err(failure) => {
            let _ = writeln!(errors, "odht: {file}: {failure}");
            failed
        }
    }
}
