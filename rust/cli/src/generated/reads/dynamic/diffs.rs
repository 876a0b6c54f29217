// Generated from crates/odht_tool_reads/src/dynamic/diffs.rt by make generate.
//! How the pairs of two tables of the same lengths of keys and values differ.

use crate::generated::core::failure::Failure;
use crate::generated::core::status::Status;
use crate::generated::core::typed::Texts;
use crate::generated::tables::bytes::Borrowed;
use crate::generated::tables::dynamic::DynTable;
use crate::generated::tables::hash::HashFn;
use crate::generated::tables::raw_table::DynIter;
use crate::generated::tool_tables::dynamic::open_valid;
use crate::host::prelude::*;
use std::io::{self, Write};

/// Which of the two tables is walked.
#[derive(Clone, Copy)]
pub enum Side {
    /// The first one.
    First,
    /// The second one.
    Second,
}

/// Writes a line for each pair that differs, or, where none does, whether the bytes do. They are
/// valid tables.
pub fn diff_lengths<H1: HashFn, H2: HashFn, O: Write>(
    texts: Texts,
    first: &[u8],
    second: &[u8],
    output: &mut O,
) -> Result<Status, Failure> {
    let one = open_valid::<H1>(texts, first);
    let two = open_valid::<H2>(texts, second);
    match write_diff(texts, &one, &two, output) {
        Ok(status) => Ok(status),
        Err(error) => Err(Failure::Output(error)),
    }
}

// The same of two tables.
fn write_diff<H1: HashFn, H2: HashFn, O: Write>(
    texts: Texts,
    one: &DynTable<H1, Borrowed<'_>>,
    two: &DynTable<H2, Borrowed<'_>>,
    output: &mut O,
) -> io::Result<Status> {
    let is_same = write_both(texts, one, two, output)?;
    if is_same {
        output.write_all(same_text(one.raw_bytes(), two.raw_bytes()).as_bytes())?;
        return Ok(Status::Done);
    }
    Ok(Status::NotDone)
}

// Writes the lines of both sides. Returns whether there are none.
fn write_both<H1: HashFn, H2: HashFn, O: Write>(
    texts: Texts,
    one: &DynTable<H1, Borrowed<'_>>,
    two: &DynTable<H2, Borrowed<'_>>,
    output: &mut O,
) -> io::Result<bool> {
    let is_first_same = write_side(texts, Side::First, one.iter(), two, output)?;
    let is_second_same = write_side(texts, Side::Second, two.iter(), one, output)?;
    Ok(is_first_same & is_second_same)
}

// What is said of two tables with the same pairs.
fn same_text(first: &[u8], second: &[u8]) -> &'static str {
    if first == second {
        "same bytes\n"
    } else {
        "same pairs, other bytes\n"
    }
}

// Writes the lines of one side, of the pairs of its table, beside the other table. Returns whether
// there are none.
fn write_side<S: HashFn, H: HashFn, O: Write>(
    texts: Texts,
    side: Side,
    pairs: DynIter<'_, S>,
    other: &DynTable<H, Borrowed<'_>>,
    output: &mut O,
) -> io::Result<bool> {
    let mut is_same = true;
    for (key, value) in pairs {
        is_same &= write_beside(texts, side, key, value, other, output)?;
    }
    Ok(is_same)
}

// Writes the line of a pair of one side, beside the other table, if there is one. Returns whether
// there is none.
fn write_beside<H: HashFn, O: Write>(
    texts: Texts,
    side: Side,
    key: &[u8],
    value: &[u8],
    other: &DynTable<H, Borrowed<'_>>,
    output: &mut O,
) -> io::Result<bool> {
    write_line(texts, side, key, value, value_of(other, key), output)
}

// The same where the other table has this value for the key, or none.
fn write_line<O: Write>(
    texts: Texts,
    side: Side,
    key: &[u8],
    value: &[u8],
    found: Option<&[u8]>,
    output: &mut O,
) -> io::Result<bool> {
    match (side, found) {
        (_, None) => {
            output.write_all(mark_of(side))?;
            texts.write_pair(key, value, output)?;
            Ok(false)
        }
        (Side::First, Some(found)) => write_change(texts, key, value, found, output),
        (Side::Second, Some(_)) => Ok(true),
    }
}

// The value of a key in a valid table.
fn value_of<'a, H: HashFn>(table: &'a DynTable<H, Borrowed<'_>>, key: &[u8]) -> Option<&'a [u8]> {
    // To look at the lengths is what tells that they are short, and keys long enough for the hash
    // function.
    let _ = table.layout();
    table.get(key)
}

// What is written before a pair of which the other table has not the key.
fn mark_of(side: Side) -> &'static [u8] {
    match side {
        Side::First => b"-\t",
        Side::Second => b"+\t",
    }
}

// Writes the line of a pair for whose key the other table has this value, if that is another one.
// Returns whether it is the same.
fn write_change<O: Write>(
    texts: Texts,
    key: &[u8],
    value: &[u8],
    found: &[u8],
    output: &mut O,
) -> io::Result<bool> {
    if value == found {
        return Ok(true);
    }
    output.write_all(b"~\t")?;
    texts.write_key(key, output)?;
    output.write_all(b"\t")?;
    texts.write_value(value, output)?;
    output.write_all(b"\t")?;
    texts.write_value(found, output)?;
    output.write_all(b"\n")?;
    Ok(false)
}
