// Generated from crates/odht_tool_reads/src/positions/lines.rt by make generate.
//! Keys of lines that are looked up in a table that is read by position.

use super::{Asked, Reached};
use crate::generated::core::dynamic_bytes::DynBytes;
use crate::generated::core::failure::Failure;
use crate::generated::core::forms::GivenForms;
use crate::generated::core::json::answers::{write_answer_in, AnswerStyle};
use crate::generated::core::key_lists::{ByteKeys, Keys};
use crate::generated::core::keys::TakenKey;
use crate::generated::core::status::Status;
use crate::generated::reads::lookups::arriving::Arriving;
use crate::generated::reads::lookups::{is_due, key_of_line, write_out, wrong_line, Coming};
use crate::generated::tables::dynamic::{FileError, FileTable, ShortBytes};
use crate::generated::tables::hash::HashFn;
use crate::generated::tables::read_at::{ReadAt, ReadError};
use crate::host::prelude::*;
use crate::shim::Global;
use std::io::{self, BufRead, ErrorKind, Write};

/// Looks up the keys of the lines, one after the other, and writes a line for each, until more bytes
/// of them than are asked for were read. Where such a bound is asked for, the lines that have come are
/// answered before the next one is waited for.
pub(super) fn answer_lines_at<H: HashFn, S: ReadAt, I: BufRead + Arriving, O: Write>(
    asked: &Asked,
    table: &FileTable<H, S>,
    style: AnswerStyle<GivenForms>,
    input: &mut I,
    output: &mut O,
) -> Result<Reached, Failure> {
    let mut line = crate::host::lists::empty(asked.alloc);
    let mut key = ByteKeys::none(asked.alloc, table.layout().key_len);
    let mut is_all_found = true;
    let mut taken = 0;
    for number in 1..u64::MAX {
        key.remove_all();
        if !add_key(asked.alloc, number, input, &mut line, style.forms, &mut key)? {
            break;
        }
        let is_due = is_due(asked.most.is_some(), input);
        let is_found = answer_key(table, key.at(0), asked.bound, is_due, style, output)?;
        is_all_found = is_found && is_all_found;
        taken = with_line(taken, line.len());
        if is_more(taken, asked.most) {
            return Ok(Reached::Line(Coming { is_live: true, number: number + 1, is_all_found }));
        }
    }
    Ok(Reached::End(Status::of(is_all_found)))
}

// How many bytes some lines have with their ends, and another one of that many bytes.
fn with_line(bytes: u64, line: usize) -> u64 {
    bytes.saturating_add(line as u64).saturating_add(1)
}

// Whether these are more bytes than there may be.
fn is_more(bytes: u64, most: Option<u64>) -> bool {
    match most {
        Some(most) => bytes > most,
        None => false,
    }
}

// Adds the key of the line of this number, if there is such a line, and returns whether there is. A
// line that is no key is a failure.
fn add_key<I: BufRead>(
    alloc: Global,
    number: u64,
    input: &mut I,
    line: &mut Vec<u8>,
    forms: GivenForms,
    keys: &mut ByteKeys,
) -> Result<bool, Failure> {
    match key_of_line(input, line, forms, keys)? {
        TakenKey::Key => Ok(true),
        TakenKey::End => Ok(false),
        TakenKey::NoKey => {
            let line = line.as_slice();
            let message = wrong_line::<ByteKeys, GivenForms>(alloc, number, line, forms)?;
            Err(Failure::Misread(message))
        }
    }
}

// Looks a key up, and writes its line, out of the buffer too where that is due. Returns whether it
// was found.
fn answer_key<H: HashFn, S: ReadAt, O: Write>(
    table: &FileTable<H, S>,
    key: &[u8],
    bound: Option<usize>,
    is_due: bool,
    style: AnswerStyle<GivenForms>,
    output: &mut O,
) -> Result<bool, Failure> {
    let value = value_at(table, key, bound)?;
    write_answer_in(&DynBytes::of(key), &value, style, output).map_err(Failure::Output)?;
    write_out(is_due, output)?;
    Ok(value.is_some())
}

// The value of a key, if it has one. A search that is longer than the bound counts as a read that
// failed.
fn value_at<H: HashFn, S: ReadAt>(
    table: &FileTable<H, S>,
    key: &[u8],
    bound: Option<usize>,
) -> Result<Option<ShortBytes>, Failure> {
    match table.get_counted(key) {
        Ok((value, groups)) => {
            if groups > bound.unwrap_or(usize::MAX) {
                return Err(Failure::Read(io::Error::from(ErrorKind::InvalidData)));
            }
            Ok(value)
        }
        Err(error) => Err(Failure::Read(unread(error))),
    }
}

// What is said of a file whose lookup failed.
fn unread(error: FileError) -> io::Error {
    match error {
        FileError::Read(ReadError::Failed { code }) => {
            io::Error::from_raw_os_error(i32::try_from(code).unwrap_or(0))
        }
        FileError::Read(ReadError::EarlyEnd) => io::Error::from(ErrorKind::UnexpectedEof),
        FileError::Read(ReadError::Interrupted) => io::Error::from(ErrorKind::Interrupted),
        FileError::Table(_) => io::Error::from(ErrorKind::InvalidData),
    }
}
