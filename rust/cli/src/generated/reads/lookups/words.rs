// Generated from crates/odht_tool_reads/src/lookups/words.rt by make generate.
//! Words that are looked up, and what is written of them.

use super::tables::value_of;
use crate::generated::core::failure::Failure;
use crate::generated::core::forms::{Form, GivenForms};
use crate::generated::core::json::answers::{write_answer_in, write_no_key, AnswerStyle};
use crate::generated::core::status::Status;
use crate::generated::core::text::Text;
use crate::generated::tables::bytes::Borrowed;
use crate::generated::tables::dynamic::{DynTable, ShortBytes};
use crate::generated::tables::hash::HashFn;
use crate::host::prelude::*;
use crate::shim::{AllocError, Global};
use std::io::{self, Write};

/// The key that a word is the text of, and its value. Both are None if the word is the text of no
/// key.
pub type Answer = (Option<ShortBytes>, Option<ShortBytes>);

/// Looks up the keys of the words, and writes a line for each. The table was opened.
pub fn answer_words<H: HashFn, O: Write>(
    alloc: Global,
    table: &DynTable<H, Borrowed<'_>>,
    style: AnswerStyle<GivenForms>,
    words: &[String],
    output: &mut O,
) -> Result<Status, Failure> {
    let answers = answers_of(alloc, table, style.forms.key, words)?;
    write_words(words, answers.as_slice(), style, output)
}

// The answers to the words.
fn answers_of<H: HashFn>(
    alloc: Global,
    table: &DynTable<H, Borrowed<'_>>,
    form: Form,
    words: &[String],
) -> Result<Vec<Answer>, AllocError> {
    let mut answers = crate::shim::with_capacity(alloc, words.len())?;
    for word in words {
        answers.try_push(answer_of(table, form, word.as_str().as_bytes()))?;
    }
    Ok(answers)
}

// The answer to a word.
fn answer_of<H: HashFn>(table: &DynTable<H, Borrowed<'_>>, form: Form, word: &[u8]) -> Answer {
    match ShortBytes::parse(word, form) {
        Some(key) => (Some(key), value_of(table, &key)),
        None => (None, None),
    }
}

/// Writes a line for each word. Not all is done if one is no key, or a key without a value.
pub fn write_words<O: Write>(
    words: &[String],
    answers: &[Answer],
    style: AnswerStyle<GivenForms>,
    output: &mut O,
) -> Result<Status, Failure> {
    write_lines(words, answers, style, output).map_err(Failure::Output)?;
    Ok(Status::of(are_found(answers)))
}

// Whether each word is a key that has a value.
fn are_found(answers: &[Answer]) -> bool {
    answers.iter().all(|answer| answer.1.is_some())
}

fn write_lines<O: Write>(
    words: &[String],
    answers: &[Answer],
    style: AnswerStyle<GivenForms>,
    output: &mut O,
) -> io::Result<()> {
    for at in 0..words.len() {
        write_word(words[at].as_str().as_bytes(), &answers[at], style, output)?;
    }
    Ok(())
}

// Writes the line of a word.
fn write_word<O: Write>(
    word: &[u8],
    answer: &Answer,
    style: AnswerStyle<GivenForms>,
    output: &mut O,
) -> io::Result<()> {
    let (key, value) = answer;
    match key {
        Some(key) => write_answer_in(key, value, style, output),
        None => write_no_key(word, style.printed, output),
    }
}
