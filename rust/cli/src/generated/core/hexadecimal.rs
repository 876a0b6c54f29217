// Generated from crates/odht_tool_core/src/hexadecimal.rt by make generate.
//! Words of hexadecimal digits that are read as bytes, of a length that is known only at run time.

use crate::generated::core::text::{digit_value, parse_in_vectors};
use crate::host::prelude::*;

/// Whether the word is two hexadecimal digits, of either case, for each of that many bytes as there
/// are in `bytes`, which then become these.
pub fn read_digits(word: &[u8], bytes: &mut [u8]) -> bool {
    if word.len() % 2 != 0 || word.len() / 2 != bytes.len() {
        return false;
    }
    if bytes.len() <= 32 {
        read_few(word, bytes)
    } else {
        read_many(word, bytes)
    }
}

// The same of at most 32 bytes. The digit 0 is put behind the word up to 64 digits, so that the
// compiler knows their number, and makes vectors of the loops.
fn read_few(word: &[u8], bytes: &mut [u8]) -> bool {
    match parse_in_vectors::<32>(&with_zeros(word)) {
        Some(all) => {
            bytes.copy_from_slice(&all[..bytes.len()]);
            true
        }
        None => false,
    }
}

// These digits, and the digit 0 behind them, 64 in all.
#[inline(always)]
fn with_zeros(word: &[u8]) -> [u8; 64] {
    let mut digits = [b'0'; 64];
    digits[..word.len()].copy_from_slice(word);
    digits
}

/// The same of any number of bytes, two digits for each. The first byte that is no digit ends it.
pub(crate) fn read_many(word: &[u8], bytes: &mut [u8]) -> bool {
    if !are_digits(word) {
        return false;
    }
    put_digits(word, bytes);
    true
}

// Puts the byte of each two digits at its place.
fn put_digits(word: &[u8], bytes: &mut [u8]) {
    for at in 0..bytes.len() {
        let high = digit_value(word[2 * at]);
        let low = digit_value(word[2 * at + 1]);
        bytes[at] = 16 * (high % 16) + low % 16;
    }
}

// Whether each byte is a hexadecimal digit, of either case.
fn are_digits(word: &[u8]) -> bool {
    word.iter().all(|digit| digit.is_ascii_hexdigit())
}

/// None: the text of these bytes has digits alone, which stand for themselves in JSON.
pub(crate) fn no_plain_bytes(bytes: &[u8]) -> Option<&[u8]> {
    None
}
