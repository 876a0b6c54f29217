// Generated from crates/odht_tool_core/src/keys.rt by make generate.
//! Words of the command line, and lines of an input, that are read as keys.

use crate::generated::core::failure::{Failure, LineFault};
use crate::generated::core::forms::Form;
use crate::generated::core::key_lists::{KeyAdded, Keys};
use crate::generated::core::lines::{is_left_out, read_line};
use crate::generated::core::misread::Misread;
use crate::generated::core::shown::Shown;
use crate::generated::core::text::Text;
use crate::host::prelude::*;
use crate::shim::Global;
use std::io::{self, BufRead, Write};

/// The keys of the words, of this length, or the first word that is none.
pub fn parse_keys<L: Keys>(
    alloc: Global,
    words: &[String],
    key_len: u8,
    form: Form,
) -> Result<L, Failure> {
    let mut keys = L::none(alloc, key_len);
    for word in words {
        match keys.add(word.as_str().as_bytes(), form) {
            KeyAdded::Key => {}
            KeyAdded::NoKey => return Err(wrong_key::<L::Key>(alloc, word.as_str(), form)),
            KeyAdded::NoMemory => return Err(Failure::Memory),
        }
    }
    Ok(keys)
}

fn wrong_key<K: Text>(alloc: Global, word: &str, form: Form) -> Failure {
    let misread = Misread {
        line: None,
        fault: LineFault::Key,
        wanted: K::wanted(form),
        text: word.as_bytes(),
    };
    match misread.message(alloc) {
        Ok(message) => Failure::Misread(message),
        Err(_) => Failure::Memory,
    }
}

/// A word of the command line, or a line, that is read as a key.
pub trait Word {
    /// Its bytes.
    fn bytes(&self) -> &[u8];
}

impl Word for String {
    fn bytes(&self) -> &[u8] {
        self.as_str().as_bytes()
    }
}

impl Word for Vec<u8> {
    fn bytes(&self) -> &[u8] {
        self.as_slice()
    }
}

/// Writes a line of this key, which is to be deleted, and is absent.
pub fn write_absent<E: Write>(file: &str, word: &[u8], errors: &mut E) -> io::Result<()> {
    let word = Shown(word);
    writeln!(errors, "odht: {file}: the key {word} is absent")
}

/// Writes a line of the key of this text, which a file has and one before it too.
pub fn write_repeated<E: Write>(file: &str, text: &[u8], errors: &mut E) -> io::Result<()> {
    let text = Shown(text);
    writeln!(errors, "odht: {file}: the key {text} is in a file before it too")
}

/// What the next line of an input is.
#[derive(Clone, Copy)]
pub enum TakenKey {
    /// The text of a key, which was added.
    Key,
    /// The text of no key.
    NoKey,
    /// There is no line, or an empty last one that is no key.
    End,
}

/// Reads the next line, and adds its key, of which it is the text in this form. The bytes of `line`
/// are replaced. Where an empty line is no key, a line after it is taken too.
#[inline]
pub fn take_key<L: Keys, I: BufRead>(
    input: &mut I,
    line: &mut Vec<u8>,
    form: Form,
    keys: &mut L,
) -> Result<TakenKey, Failure> {
    if !read_line(input, line).map_err(Failure::Input)? {
        return Ok(TakenKey::End);
    }
    match keys.add(line.as_slice(), form) {
        KeyAdded::Key => Ok(TakenKey::Key),
        KeyAdded::NoKey => {
            if is_left_out(input, line).map_err(Failure::Input)? {
                Ok(TakenKey::End)
            } else {
                Ok(TakenKey::NoKey)
            }
        }
        KeyAdded::NoMemory => Err(Failure::Memory),
    }
}

/// What the next line of an input is. Only the benchmark reads keys one by one.
pub enum NextKey<K> {
    /// The text of this key.
    Key(K),
    /// The text of no key.
    NoKey,
    /// There is no line, or an empty last one that is no key.
    End,
}

/// Reads the next line, and parses its key, in the text that its type has. The bytes of `line` are
/// replaced.
#[inline]
pub fn next_key<K: Text, I: BufRead>(input: &mut I, line: &mut Vec<u8>) -> io::Result<NextKey<K>> {
    if !read_line(input, line)? {
        return Ok(NextKey::End);
    }
    match K::parse(line.as_slice(), Form::Own) {
        Some(key) => Ok(NextKey::Key(key)),
        None if is_left_out(input, line)? => Ok(NextKey::End),
        None => Ok(NextKey::NoKey),
    }
}

/// Adds a key.
pub fn push_key<K: Text>(keys: &mut Vec<K>, key: K) -> Result<(), Failure> {
    keys.try_push(key).map_err(|_| Failure::Memory)
}
