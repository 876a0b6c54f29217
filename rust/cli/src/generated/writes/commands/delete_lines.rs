// Generated from crates/odht_tool_writes/src/commands/delete_lines.rt by make generate.
//! `odht delete FILE -`: the keys are the lines of standard input.

use crate::generated::core::any::AnyShape;
use crate::generated::core::failure::{Failure, LineFault};
use crate::generated::core::forms::Form;
use crate::generated::core::key_lists::{ByteKeys, Keys};
use crate::generated::core::keys::{take_key, TakenKey};
use crate::generated::core::misread::Misread;
use crate::generated::core::text::Text;
use crate::generated::tables::dynamic::ShortBytes;
use crate::host::prelude::*;
use crate::shim::Global;
use std::io::BufRead;

/// Lines, and the keys that they are the texts of.
pub struct KeyLines {
    pub lines: Vec<Vec<u8>>,
    pub keys: ByteKeys,
}

/// The lines, and the bytes of their keys in this form, or the first line that is no key.
pub fn keys_of_lines<I: BufRead>(
    alloc: Global,
    shape: AnyShape,
    form: Form,
    input: &mut I,
) -> Result<KeyLines, Failure> {
    let key = shape.key();
    read_lines(alloc, key.size(), form.of(key), input)
}

// The lines of an input, except an empty last one that is no key, and their keys, of this length; or
// the first line that is no key.
fn read_lines<I: BufRead>(
    alloc: Global,
    key_len: u8,
    form: Form,
    input: &mut I,
) -> Result<KeyLines, Failure> {
    let mut lines = crate::host::lists::empty(alloc);
    let mut keys = ByteKeys::none(alloc, key_len);
    for number in 1..u64::MAX {
        if !take_line(alloc, number, form, input, &mut lines, &mut keys)? {
            return Ok(KeyLines { lines, keys });
        }
    }
    // There is no room for that many.
    Err(Failure::Memory)
}

// Adds the line of this number and its key, if there is such a line. Returns whether there is.
fn take_line<I: BufRead>(
    alloc: Global,
    number: u64,
    form: Form,
    input: &mut I,
    lines: &mut Vec<Vec<u8>>,
    keys: &mut ByteKeys,
) -> Result<bool, Failure> {
    let mut line = crate::host::lists::empty(alloc);
    match take_key(input, &mut line, form, keys)? {
        TakenKey::Key => {
            lines.try_push(line).map_err(|_| Failure::Memory)?;
            Ok(true)
        }
        TakenKey::End => Ok(false),
        TakenKey::NoKey => Err(wrong_line(alloc, number, line.as_slice(), form)),
    }
}

// What is said of the line of this number, which is no key.
fn wrong_line(alloc: Global, number: u64, line: &[u8], form: Form) -> Failure {
    let misread = Misread {
        line: Some(number),
        fault: LineFault::Key,
        wanted: <ShortBytes as Text>::wanted(form),
        text: line,
    };
    match misread.message(alloc) {
        Ok(message) => Failure::Misread(message),
        Err(_) => Failure::Memory,
    }
}
