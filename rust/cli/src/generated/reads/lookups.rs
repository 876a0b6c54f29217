// Generated from crates/odht_tool_reads/src/lookups.rt by make generate.
//! Keys that are looked up in a table, and what is written of them: those of lines, a batch at a
//! time, and of the words of a command line.

use crate::generated::core::failure::{Failure, LineFault};
use crate::generated::core::forms::Forms;
use crate::generated::core::json::answers::AnswerStyle;
use crate::generated::core::key_lists::Keys;
use crate::generated::core::keys::{take_key, TakenKey};
use crate::generated::core::misread::Misread;
use crate::generated::core::status::Status;
use crate::generated::core::text::Text;
use crate::host::prelude::*;
use crate::shim::{AllocError, Global};
use std::io::{BufRead, Write};

pub mod arriving;
mod tables;
pub mod words;

use arriving::Arriving;

/// How many keys are looked up at once.
const BATCH: usize = 1024;

/// The lines that an input has left, and how they are answered.
#[derive(Clone, Copy)]
pub struct Coming {
    /// Whether the answers to the lines that have come are written out before the next line is
    /// waited for.
    pub is_live: bool,
    /// The number of the next line, counted from 1.
    pub number: u64,
    /// Whether the keys of all lines before it were found.
    pub is_all_found: bool,
}

impl Coming {
    /// All lines of an input.
    pub fn all(is_live: bool) -> Coming {
        Coming { is_live, number: 1, is_all_found: true }
    }
}

/// How the keys of lines are answered.
#[derive(Clone, Copy)]
pub struct LineStyle<F: Forms> {
    /// How they and their values are written.
    pub answers: AnswerStyle<F>,
    /// Which lines they are on.
    pub coming: Coming,
}

/// A table in which keys are looked up that have texts, as its values have.
pub trait Lookups {
    /// Keys that are looked up.
    type Keys: Keys;

    /// A value.
    type Value: Text;

    /// No keys of this table.
    fn no_keys(&self, alloc: Global) -> Self::Keys;

    /// Looks the keys up, and writes a line for each. Returns whether each was found.
    fn answer<F: Forms, O: Write>(
        &self,
        alloc: Global,
        keys: &Self::Keys,
        style: AnswerStyle<F>,
        output: &mut O,
    ) -> Result<bool, Failure>;
}

/// Looks up the keys of the lines that are left, a batch at a time, and writes a line for each. Where
/// that is asked for, the lines that have come are answered before the next one is waited for.
/// Returns whether each key was found, and those before.
pub fn answer_lines<T: Lookups, F: Forms, I: BufRead + Arriving, O: Write>(
    alloc: Global,
    table: &T,
    style: LineStyle<F>,
    input: &mut I,
    output: &mut O,
) -> Result<Status, Failure> {
    let LineStyle { answers, coming } = style;
    let mut keys = table.no_keys(alloc);
    let mut line = crate::host::lists::empty(alloc);
    let mut is_all_found = coming.is_all_found;
    for number in coming.number..u64::MAX {
        let read = read_key(alloc, table, number, input, &mut line, &mut keys, answers, output)?;
        if !read {
            break;
        }
        let is_live = is_due(coming.is_live, input);
        let due = LineStyle { answers, coming: Coming { is_live, ..coming } };
        is_all_found = answer_batch(alloc, table, &mut keys, is_all_found, due, output)?;
        write_out(is_live, output)?;
    }
    let is_last_found = table.answer(alloc, &keys, answers, output)?;
    Ok(Status::of(is_last_found && is_all_found))
}

/// Whether the lines that have come are to be answered.
#[inline(always)]
pub(crate) fn is_due<I: Arriving>(is_live: bool, input: &I) -> bool {
    is_live && input.is_waiting()
}

// Adds the key of the line of this number, if there is such a line, and returns whether there is.
// Where it is no key, the keys before it are answered first.
fn read_key<T: Lookups, F: Forms, I: BufRead, O: Write>(
    alloc: Global,
    table: &T,
    number: u64,
    input: &mut I,
    line: &mut Vec<u8>,
    keys: &mut T::Keys,
    style: AnswerStyle<F>,
    output: &mut O,
) -> Result<bool, Failure> {
    match key_of_line(input, line, style.forms, keys)? {
        TakenKey::Key => Ok(true),
        TakenKey::End => Ok(false),
        TakenKey::NoKey => {
            let message = wrong_line::<T::Keys, F>(alloc, number, line.as_slice(), style.forms)?;
            table.answer(alloc, keys, style, output)?;
            Err(Failure::Misread(message))
        }
    }
}

/// Adds the key of the next line, in the form of keys.
#[inline(always)]
pub(crate) fn key_of_line<L: Keys, F: Forms, I: BufRead>(
    input: &mut I,
    line: &mut Vec<u8>,
    forms: F,
    keys: &mut L,
) -> Result<TakenKey, Failure> {
    take_key(input, line, forms.key(), keys)
}

/// What is said of a line that is no key.
pub(crate) fn wrong_line<L: Keys, F: Forms>(
    alloc: Global,
    number: u64,
    line: &[u8],
    forms: F,
) -> Result<String, AllocError> {
    let misread = Misread {
        line: Some(number),
        fault: LineFault::Key,
        wanted: L::Key::wanted(forms.key()),
        text: line,
    };
    misread.message(alloc)
}

// Answers the keys where they are a batch, and drops them; where `is_live` holds, fewer too. Returns
// whether each was found, and those before.
fn answer_batch<T: Lookups, F: Forms, O: Write>(
    alloc: Global,
    table: &T,
    keys: &mut T::Keys,
    is_all_found: bool,
    style: LineStyle<F>,
    output: &mut O,
) -> Result<bool, Failure> {
    if is_few(keys.count(), style.coming.is_live) {
        return Ok(is_all_found);
    }
    let is_found = table.answer(alloc, keys, style.answers, output)?;
    keys.remove_all();
    Ok(is_found && is_all_found)
}

// Whether that many keys wait for more of a batch.
#[inline(always)]
fn is_few(count: usize, is_live: bool) -> bool {
    count < BATCH && !is_live
}

/// Writes out what the buffer of the output has, where that is due.
#[inline(always)]
pub(crate) fn write_out<O: Write>(is_due: bool, output: &mut O) -> Result<(), Failure> {
    if is_due {
        output.flush().map_err(Failure::Output)?;
    }
    Ok(())
}
