// Generated from crates/odht_tool_core/src/arguments/delimiters.rt by make generate.
//! The byte between key and value on a line, as it is named.

use crate::host::prelude::*;

/// The byte that the word names: its own, where that is a printable character of ASCII and no
/// quote; of `\t` a tab.
pub(super) fn delimiter_named(word: &str) -> Option<u8> {
    match word.as_bytes() {
        [byte] if is_delimiter(*byte) => Some(*byte),
        b"\\t" => Some(b'\t'),
        _ => None,
    }
}

fn is_delimiter(byte: u8) -> bool {
    b' ' <= byte && byte <= b'~' && byte != b'"' && byte != b'\''
}
