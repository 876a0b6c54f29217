// Generated from crates/odht_tool_reads/src/positions/shaped.rt by make generate.
//! The table that is read by position, of its types and its hash function.

use super::lines::answer_lines_at;
use super::lookups::answer_words_at;
use super::{Asked, Reached};
use crate::generated::core::any::OtherShape;
use crate::generated::core::failure::Failure;
use crate::generated::core::forms::GivenForms;
use crate::generated::core::json::answers::AnswerStyle;
use crate::generated::core::shapes::Hash;
use crate::generated::core::status::Status;
use crate::generated::reads::lookups::arriving::Arriving;
use crate::generated::tables::dynamic::{FileTable, Layout};
use crate::generated::tables::hash::HashFn;
use crate::generated::tables::read_at::ReadAt;
use crate::generated::tables::{FxHashFn, UnHashFn, Xxh64HashFn};
use crate::generated::tool_tables::dynamic::lengths_of;
use crate::host::prelude::*;
use std::io::{BufRead, Write};

/// Where the bytes of a table are in a source, and what its header tells of them.
#[derive(Clone, Copy)]
pub(super) struct Found {
    pub(super) at: u64,
    pub(super) len: usize,
    /// The types of keys and values, and the hash function.
    pub(super) shape: OtherShape,
    /// The forms of their texts.
    pub(super) forms: GivenForms,
}

/// `odht get` for the words of the command line, of the table that was found. None where a read
/// failed, or its bytes are not opened: nothing was written then.
pub(super) fn words_of<S: ReadAt, O: Write>(
    asked: &Asked,
    source: S,
    found: Found,
    words: &[String],
    output: &mut O,
) -> Result<Option<Status>, Failure> {
    match found.shape.hash {
        Hash::Fx => words_hashed::<FxHashFn, S, O>(asked, source, found, words, output),
        Hash::Unhash => words_hashed::<UnHashFn, S, O>(asked, source, found, words, output),
        Hash::Xxh64 => words_hashed::<Xxh64HashFn, S, O>(asked, source, found, words, output),
    }
}

fn words_hashed<H: HashFn, S: ReadAt, O: Write>(
    asked: &Asked,
    source: S,
    found: Found,
    words: &[String],
    output: &mut O,
) -> Result<Option<Status>, Failure> {
    let shape = found.shape;
    let layout = lengths_of(shape.key, shape.value);
    let style = AnswerStyle { forms: found.forms.of(shape), printed: asked.printed };
    match open_file::<H, S>(layout, source, found.at, found.len) {
        Some(table) => answer_words_at(asked.alloc, &table, style, words, output),
        None => Ok(None),
    }
}

/// The same for the lines of an input. None where a read failed, or the bytes are not opened: nothing
/// was written then, and no line was read.
pub(super) fn lines_of<S: ReadAt, I: BufRead + Arriving, O: Write>(
    asked: &Asked,
    source: S,
    found: Found,
    input: &mut I,
    output: &mut O,
) -> Result<Option<Reached>, Failure> {
    match found.shape.hash {
        Hash::Fx => lines_hashed::<FxHashFn, S, I, O>(asked, source, found, input, output),
        Hash::Unhash => lines_hashed::<UnHashFn, S, I, O>(asked, source, found, input, output),
        Hash::Xxh64 => lines_hashed::<Xxh64HashFn, S, I, O>(asked, source, found, input, output),
    }
}

fn lines_hashed<H: HashFn, S: ReadAt, I: BufRead + Arriving, O: Write>(
    asked: &Asked,
    source: S,
    found: Found,
    input: &mut I,
    output: &mut O,
) -> Result<Option<Reached>, Failure> {
    let shape = found.shape;
    let layout = lengths_of(shape.key, shape.value);
    let style = AnswerStyle { forms: found.forms.of(shape), printed: asked.printed };
    let Some(table) = open_file::<H, S>(layout, source, found.at, found.len) else {
        return Ok(None);
    };
    let reached = answer_lines_at(asked, &table, style, input, output)?;
    Ok(Some(reached))
}

// Opens the bytes as a table of these lengths. None where they are not opened, or a read failed.
fn open_file<H: HashFn, S: ReadAt>(
    layout: Layout,
    source: S,
    at: u64,
    len: usize,
) -> Option<FileTable<H, S>> {
    match FileTable::<H, S>::open_at(layout, source, at, len) {
        Ok(table) => Some(table),
        Err(_) => None,
    }
}
