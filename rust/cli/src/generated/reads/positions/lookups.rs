// Generated from crates/odht_tool_reads/src/positions/lookups.rt by make generate.
//! Lookups in a table that is read by position, and what is written of them.

use crate::generated::core::failure::Failure;
use crate::generated::core::forms::{Form, GivenForms};
use crate::generated::core::json::answers::AnswerStyle;
use crate::generated::core::status::Status;
use crate::generated::core::text::Text;
use crate::generated::reads::lookups::words::{write_words, Answer};
use crate::generated::tables::dynamic::{FileTable, ShortBytes};
use crate::generated::tables::hash::HashFn;
use crate::generated::tables::memory_layout::DEFAULT_GROUPS;
use crate::generated::tables::read_at::ReadAt;
use crate::host::prelude::*;
use crate::shim::{AllocError, Global};
use std::io::Write;

/// Looks up the keys of the words, and writes a line for each. None where a read failed, or a search
/// was longer than the bound: nothing was written then.
pub(super) fn answer_words_at<H: HashFn, S: ReadAt, O: Write>(
    alloc: Global,
    table: &FileTable<H, S>,
    style: AnswerStyle<GivenForms>,
    words: &[String],
    output: &mut O,
) -> Result<Option<Status>, Failure> {
    match answers_at(alloc, table, style.forms.key, words)? {
        Some(answers) => {
            let status = write_words(words, answers.as_slice(), style, output)?;
            Ok(Some(status))
        }
        None => Ok(None),
    }
}

// The answers to the words. None where a read failed, or a search was longer than the bound.
fn answers_at<H: HashFn, S: ReadAt>(
    alloc: Global,
    table: &FileTable<H, S>,
    form: Form,
    words: &[String],
) -> Result<Option<Vec<Answer>>, AllocError> {
    let mut answers = crate::shim::with_capacity(alloc, words.len())?;
    for word in words {
        match answer_at(table, form, word.as_str().as_bytes()) {
            Some(answer) => answers.try_push(answer)?,
            None => return Ok(None),
        }
    }
    Ok(Some(answers))
}

// The answer to a word. None where a read failed, or the search was longer than the bound.
fn answer_at<H: HashFn, S: ReadAt>(
    table: &FileTable<H, S>,
    form: Form,
    word: &[u8],
) -> Option<Answer> {
    match ShortBytes::parse(word, form) {
        Some(key) => {
            let (value, groups) = table.get_counted(key.as_slice()).ok()?;
            if groups > DEFAULT_GROUPS {
                return None;
            }
            Some((Some(key), value))
        }
        None => Some((None, None)),
    }
}
