// Generated from crates/odht_tool_reads/src/commands/get.rt by make generate.
//! `odht get`: lookups in a table file.

use crate::for_shape;
use crate::generated::core::any::{read_any, AnyShape};
use crate::generated::core::failure::Failure;
use crate::generated::core::forms::{Forms, GivenForms, Kinds, OwnForms};
use crate::generated::core::job::Job;
use crate::generated::core::json::answers::AnswerStyle;
use crate::generated::core::shapes::{Hash, Shape};
use crate::generated::core::status::Status;
use crate::generated::core::text::Text;
use crate::generated::reads::bounds::check_bound;
use crate::generated::reads::dynamic::gets::{get_lines_dynamic, get_words_dynamic};
use crate::generated::reads::lookups::arriving::Arriving;
use crate::generated::reads::lookups::{answer_lines, Coming, LineStyle};
use crate::generated::tables::bytes::Borrowed;
use crate::generated::tables::config::Config;
use crate::generated::tables::HashTable;
use crate::generated::tool_tables::generated::shapes::Itself;
use crate::host::prelude::*;
use crate::shim::Global;
use std::io::{BufRead, Write};

/// `odht get` of the bytes of a file, for the words of the command line: writes a line for each
/// key, with a tab and its value, or the key alone; or an object of JSON of both. Or the line has
/// only the value. Where a search may read more groups than the bound, it fails before it writes.
pub fn get_file_words<O: Write>(
    job: &Job<'_>,
    hash: Option<Hash>,
    kinds: Kinds,
    words: &[String],
    output: &mut O,
) -> Result<Status, Failure> {
    match check_bound(job.bytes, job.bound) {
        Ok(()) => get_words(job, hash, kinds, words, output),
        Err(error) => Err(Failure::Refused(error)),
    }
}

// The same without a bound.
fn get_words<O: Write>(
    job: &Job<'_>,
    hash: Option<Hash>,
    kinds: Kinds,
    words: &[String],
    output: &mut O,
) -> Result<Status, Failure> {
    let found = read_any(job.bytes, hash, kinds)?;
    let (shape, forms) = found;
    get_words_dynamic(job, shape.types(), forms, words, output)
}

/// `odht get` of the bytes of a file, for the lines that an input has left. Where a search may read
/// more groups than the bound, it fails before it reads a line.
pub fn get_file_lines<I: BufRead + Arriving, O: Write>(
    job: &Job<'_>,
    hash: Option<Hash>,
    kinds: Kinds,
    coming: Coming,
    input: &mut I,
    output: &mut O,
) -> Result<Status, Failure> {
    match check_bound(job.bytes, job.bound) {
        Ok(()) => get_lines_of_file(job, hash, kinds, coming, input, output),
        Err(error) => Err(Failure::Refused(error)),
    }
}

// The same without a bound.
fn get_lines_of_file<I: BufRead + Arriving, O: Write>(
    job: &Job<'_>,
    hash: Option<Hash>,
    kinds: Kinds,
    coming: Coming,
    input: &mut I,
    output: &mut O,
) -> Result<Status, Failure> {
    let found = read_any(job.bytes, hash, kinds)?;
    let (shape, forms) = found;
    match shape {
        AnyShape::Ready(shape) => get_lines_ready(job, shape, forms, coming, input, output),
        AnyShape::Other(shape) => get_lines_dynamic(job, shape, forms, coming, input, output),
    }
}

// The same of a ready shape, in these forms.
fn get_lines_ready<I: BufRead + Arriving, O: Write>(
    job: &Job<'_>,
    shape: Shape,
    forms: GivenForms,
    coming: Coming,
    input: &mut I,
    output: &mut O,
) -> Result<Status, Failure> {
    let printed = job.printed();
    if forms.are_own() {
        let answers = AnswerStyle { forms: OwnForms, printed };
        get_lines_of(job.alloc, job.bytes, shape, LineStyle { answers, coming }, input, output)
    } else {
        let answers = AnswerStyle { forms, printed };
        get_lines_of(job.alloc, job.bytes, shape, LineStyle { answers, coming }, input, output)
    }
}

fn get_lines_of<F: Forms, I: BufRead + Arriving, O: Write>(
    alloc: Global,
    bytes: &[u8],
    shape: Shape,
    style: LineStyle<F>,
    input: &mut I,
    output: &mut O,
) -> Result<Status, Failure> {
    for_shape!(shape, Itself, get_lines[F, I, O](alloc, bytes, style, input, output))
}

// Looks up the keys of the lines, a batch at a time.
fn get_lines<C: Config, F: Forms, I: BufRead + Arriving, O: Write>(
    alloc: Global,
    bytes: &[u8],
    style: LineStyle<F>,
    input: &mut I,
    output: &mut O,
) -> Result<Status, Failure>
where
    C::Key: Text,
    C::Value: Text,
{
    let table = open::<C>(bytes)?;
    answer_lines(alloc, &table, style, input, output)
}

fn open<C: Config>(bytes: &[u8]) -> Result<HashTable<C, Borrowed<'_>>, Failure> {
    HashTable::from_raw_bytes(Borrowed::new(bytes)).map_err(Failure::Refused)
}
