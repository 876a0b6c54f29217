// Generated from crates/odht_tool_reads/src/dynamic/gets.rt by make generate.
//! `odht get` of tables whose lengths are numbers.

use crate::generated::core::any::OtherShape;
use crate::generated::core::failure::Failure;
use crate::generated::core::forms::GivenForms;
use crate::generated::core::job::Job;
use crate::generated::core::json::answers::AnswerStyle;
use crate::generated::core::shapes::Hash;
use crate::generated::core::status::Status;
use crate::generated::reads::lookups::arriving::Arriving;
use crate::generated::reads::lookups::words::answer_words;
use crate::generated::reads::lookups::{answer_lines, Coming, LineStyle};
use crate::generated::tables::dynamic::Layout;
use crate::generated::tables::hash::HashFn;
use crate::generated::tables::{FxHashFn, UnHashFn, Xxh64HashFn};
use crate::generated::tool_tables::dynamic::{lengths_of, open_lengths};
use crate::host::prelude::*;
use std::io::{BufRead, Write};

/// `odht get` of bytes of these types, for the words of the command line.
pub fn get_words_dynamic<O: Write>(
    job: &Job<'_>,
    shape: OtherShape,
    forms: GivenForms,
    words: &[String],
    output: &mut O,
) -> Result<Status, Failure> {
    let (layout, forms) = (lengths_of(shape.key, shape.value), forms.of(shape));
    match shape.hash {
        Hash::Fx => get_words_hashed::<FxHashFn, O>(job, layout, forms, words, output),
        Hash::Unhash => get_words_hashed::<UnHashFn, O>(job, layout, forms, words, output),
        Hash::Xxh64 => get_words_hashed::<Xxh64HashFn, O>(job, layout, forms, words, output),
    }
}

/// `odht get` of bytes of a shape, for the lines that an input has left.
pub fn get_lines_dynamic<I: BufRead + Arriving, O: Write>(
    job: &Job<'_>,
    shape: OtherShape,
    forms: GivenForms,
    coming: Coming,
    input: &mut I,
    output: &mut O,
) -> Result<Status, Failure> {
    let layout = lengths_of(shape.key, shape.value);
    let forms = forms.of(shape);
    let printed = job.printed();
    let answers = AnswerStyle { forms, printed };
    let style = LineStyle { answers, coming };
    match shape.hash {
        Hash::Fx => get_lines_hashed::<FxHashFn, I, O>(job, layout, style, input, output),
        Hash::Unhash => get_lines_hashed::<UnHashFn, I, O>(job, layout, style, input, output),
        Hash::Xxh64 => get_lines_hashed::<Xxh64HashFn, I, O>(job, layout, style, input, output),
    }
}

fn get_words_hashed<H: HashFn, O: Write>(
    job: &Job<'_>,
    layout: Layout,
    forms: GivenForms,
    words: &[String],
    output: &mut O,
) -> Result<Status, Failure> {
    let table = open_lengths::<H>(layout, job.bytes)?;
    let printed = job.printed();
    answer_words(job.alloc, &table, AnswerStyle { forms, printed }, words, output)
}

fn get_lines_hashed<H: HashFn, I: BufRead + Arriving, O: Write>(
    job: &Job<'_>,
    layout: Layout,
    style: LineStyle<GivenForms>,
    input: &mut I,
    output: &mut O,
) -> Result<Status, Failure> {
    let table = open_lengths::<H>(layout, job.bytes)?;
    answer_lines(job.alloc, &table, style, input, output)
}
