// Generated from crates/odht_tool_core/src/plain.rt by make generate.
//! Bytes as plain text, without NUL, tab and line end: they are stored with zeros behind the text.

use crate::host::prelude::*;
use std::io::{self, Write};

/// The bytes of the word, and zeros behind them. None where it is longer, or has a byte that no
/// plain text has.
pub(crate) fn parse_plain<const N: usize>(word: &[u8]) -> Option<[u8; N]> {
    let mut bytes = [0; N];
    if read_plain(word, &mut bytes) {
        Some(bytes)
    } else {
        None
    }
}

/// Whether the word is a plain text of at most that many bytes as there are in `bytes`, all zeros;
/// these then become the text and zeros behind it.
pub(crate) fn read_plain(word: &[u8], bytes: &mut [u8]) -> bool {
    if word.len() > bytes.len() || !are_plain(word) {
        return false;
    }
    bytes[..word.len()].copy_from_slice(word);
    true
}

/// Whether each byte may be in a plain text.
pub(crate) fn are_plain(word: &[u8]) -> bool {
    word.iter().all(|byte| is_plain(*byte))
}

/// Whether a byte may be in a plain text.
pub(crate) fn is_plain(byte: u8) -> bool {
    byte != 0 && byte != b'\t' && byte != b'\n' && byte != b'\r'
}

/// Writes the bytes without the zeros at their end, whatever they are.
pub(crate) fn write_plain<W: Write>(bytes: &[u8], output: &mut W) -> io::Result<()> {
    output.write_all(&bytes[..text_len(bytes)])
}

/// The bytes without the zeros at their end.
pub(crate) fn plain_of(bytes: &[u8]) -> &[u8] {
    &bytes[..text_len(bytes)]
}

// How many bytes there are without the zeros at the end.
fn text_len(bytes: &[u8]) -> usize {
    let mut count = bytes.len();
    while count > 0 && bytes[count - 1] == 0 {
        count -= 1;
    }
    count
}
