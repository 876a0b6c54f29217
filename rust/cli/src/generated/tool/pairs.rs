// Generated from crates/odht_tool/src/pairs.rt by make generate.
//! The pairs that `put` has as words.
use crate::generated::core::arguments::{Command, Misuse, Request};
use crate::generated::core::failure::Failure;
use crate::host::prelude::*;
use crate::shim::{AllocError, Global};

/// A line of each pair that is given as words: the key, a tab and the value. No byte of these ends
/// one of them.
pub fn lines_of_words(
    alloc: Global,
    request: &Result<Request, Misuse>,
) -> Result<Vec<u8>, AllocError> {
    let mut lines = crate::host::lists::empty(alloc);
    if let Ok(Request::Run { command: Command::Put { words, .. }, .. }) = request {
        let mut end = b'\t';
        for word in words {
            lines.try_extend_from_slice(word.as_bytes())?;
            lines.try_push(end)?;
            end = if end == b'\t' { b'\n' } else { b'\t' };
        }
    }
    Ok(lines)
}

/// The failure of a pair of words, by that of its line.
pub fn of_words(alloc: Global, failure: Failure) -> Failure {
    let Failure::Misread(message) = failure else {
        return failure;
    };
    let Some(told) = message.as_str().strip_prefix("standard input, line ") else {
        return Failure::Misread(message);
    };
    match crate::host::texts::formatted(alloc, format_args!("pair {told}")) {
        Ok(message) => Failure::Misread(message),
        Err(_) => Failure::Memory,
    }
}
