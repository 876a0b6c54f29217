// Generated from crates/odht_tool_reads/src/commands/diff.rt by make generate.
//! `odht diff`: how the pairs of two table files differ.

use crate::generated::core::any::AnyShape;
use crate::generated::core::arguments::DiffOptions;
use crate::generated::core::failure::Failure;
use crate::generated::core::forms::{GivenForms, Kinds};
use crate::generated::core::job::Streams;
use crate::generated::core::shapes::Hash;
use crate::generated::core::status::Status;
use crate::generated::core::typed::Texts;
use crate::generated::reads::dynamic::diffs::diff_lengths;
use crate::generated::reads::positions::check_hash;
use crate::generated::tables::hash::HashFn;
use crate::generated::tables::{FxHashFn, UnHashFn, Xxh64HashFn};
use crate::generated::tool_tables::files::{finish_as, read_bytes};
use crate::generated::tool_tables::whole::{have_same_sizes, read_whole, sizes_of, write_sizes};
use crate::host::prelude::*;
use crate::host::rt::Files;
use std::io::{BufRead, Write};
use std::os::unix::fs::FileExt;

/// The first one of two files: a valid table, whose texts the lines have.
#[derive(Clone, Copy)]
pub struct First<'a> {
    /// The name of the file.
    pub file: &'a str,
    /// The shape of its table.
    pub shape: AnyShape,
    /// The forms of keys and values.
    pub forms: GivenForms,
    /// All its bytes.
    pub bytes: &'a [u8],
}

/// Compares a file with another one. A failure of the other is reported here.
pub fn diff<R: Files + AllocGlobal, I: BufRead, O: Write, E: Write>(
    rt: &R,
    file: &str,
    options: DiffOptions,
    streams: &mut Streams<'_, '_, '_, I, O, E>,
) -> Result<Status, Failure>
where
    R::File: FileExt,
{
    check_hash(rt, file, None, options.hash, options.kinds)?;
    let first = read_bytes(rt, file, streams.input)?;
    let bytes = first.as_slice();
    let (shape, forms) = read_whole(bytes, options.hash, options.kinds, options.bound)?;
    let first = First { file, shape, forms, bytes };
    let other = options.other.as_str();
    let second = match read_other(rt, other, options.hash, streams.input) {
        Ok(second) => second,
        Err(failure) => {
            return Ok(finish_as(other, Err(failure), Status::Trouble, streams.errors));
        }
    };
    let second = second.as_slice();
    diff_beside(&first, &options, second, streams.output, streams.errors)
}

// The bytes of the second file.
fn read_other<R: Files + AllocGlobal, I: BufRead>(
    rt: &R,
    other: &str,
    hash: Option<Hash>,
    input: &mut I,
) -> Result<Vec<u8>, Failure>
where
    R::File: FileExt,
{
    let kinds = Kinds { key: None, value: None, hash: None };
    check_hash(rt, other, None, hash, kinds)?;
    read_bytes(rt, other, input)
}

// The same where the second file has these bytes. A failure of it is reported here.
fn diff_beside<O: Write, E: Write>(
    first: &First<'_>,
    options: &DiffOptions,
    second: &[u8],
    output: &mut O,
    errors: &mut E,
) -> Result<Status, Failure> {
    let other = options.other.as_str();
    // Its keys and values are written in the texts of the first one.
    let kinds = Kinds { key: None, value: None, hash: None };
    match read_whole(second, options.hash, kinds, options.bound) {
        Ok((beside, _)) if have_same_sizes(first.shape, beside) => {
            diff_tables(first, beside, second, output)
        }
        Ok((beside, _)) => {
            let (sizes, wanted) = (sizes_of(beside), sizes_of(first.shape));
            // A line that cannot be written is no failure.
            let _ = write_sizes(other, first.file, sizes, wanted, errors);
            Ok(Status::Trouble)
        }
        Err(failure) => Ok(finish_as(other, Err(failure), Status::Trouble, errors)),
    }
}

/// Compares the first file with the bytes of another one, which are a valid table of this shape:
/// writes a line for each pair that differs, in the texts of the first one, or, where none does,
/// whether the bytes do.
pub fn diff_tables<O: Write>(
    first: &First<'_>,
    beside: AnyShape,
    second: &[u8],
    output: &mut O,
) -> Result<Status, Failure> {
    let (shape, bytes) = (first.shape, first.bytes);
    let texts = Texts::of(shape, first.forms);
    let hash = beside.hash();
    match shape.hash() {
        Hash::Fx => diff_with::<FxHashFn, O>(texts, bytes, hash, second, output),
        Hash::Unhash => diff_with::<UnHashFn, O>(texts, bytes, hash, second, output),
        Hash::Xxh64 => diff_with::<Xxh64HashFn, O>(texts, bytes, hash, second, output),
    }
}

// The same of texts, and of the hash functions of the first and of the second.
fn diff_with<H: HashFn, O: Write>(
    texts: Texts,
    first: &[u8],
    hash: Hash,
    second: &[u8],
    output: &mut O,
) -> Result<Status, Failure> {
    match hash {
        Hash::Fx => diff_lengths::<H, FxHashFn, O>(texts, first, second, output),
        Hash::Unhash => diff_lengths::<H, UnHashFn, O>(texts, first, second, output),
        Hash::Xxh64 => diff_lengths::<H, Xxh64HashFn, O>(texts, first, second, output),
    }
}
