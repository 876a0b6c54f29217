// Generated from crates/odht_tool_core/src/lines.rt by make generate.
//! The lines of standard input.

use crate::generated::core::failure::{Failure, LineFault};
use crate::generated::core::forms::{Form, Forms, OwnForms};
use crate::generated::core::misread::Wanted;
use crate::generated::core::pairs::{Added, Pairs};
use crate::generated::core::places::{cut_at, place_of};
use crate::generated::core::text::Text;
use crate::host::prelude::*;
use std::io::{self, BufRead, ErrorKind};

/// Reads the next line into `line`, without its end, `\n` or `\r\n`, and replaces what `line`
/// held. False at the end of the input. A read that was interrupted is made again. After an error
/// do not use the line.
pub(crate) fn read_line<R: BufRead>(reader: &mut R, line: &mut Vec<u8>) -> io::Result<bool> {
    line.clear();
    if !read_through(reader, line)? {
        return Ok(false);
    }
    drop_end(line);
    Ok(true)
}

// Reads the next line with its end. False at the end of the input.
#[inline(always)]
fn read_through<R: BufRead>(reader: &mut R, line: &mut Vec<u8>) -> io::Result<bool> {
    match take_buffered(reader, line)? {
        Buffered::Line => Ok(true),
        Buffered::Part => Ok(reader.try_read_until(b'\n', line)? > 0),
        Buffered::End => Ok(false),
    }
}

// What a reader has in its buffer: a line with its end, which is taken; a part of one at most,
// which is left there, as where a read was interrupted; or nothing, at the end of the input.
#[derive(Clone, Copy)]
enum Buffered {
    Line,
    Part,
    End,
}

// Most lines are in the buffer whole, and need one search and one copy.
#[inline(always)]
fn take_buffered<R: BufRead>(reader: &mut R, line: &mut Vec<u8>) -> io::Result<Buffered> {
    let available = match reader.fill_buf() {
        Ok(available) => available,
        Err(error) => return buffered_after(error),
    };
    if available.is_empty() {
        return Ok(Buffered::End);
    }
    let place = place_of(available, b'\n');
    if place == available.len() {
        return Ok(Buffered::Part);
    }
    line.try_extend_from_slice(&available[..place + 1])?;
    reader.consume(place + 1);
    Ok(Buffered::Line)
}

// What is done where this error came when the buffer was to be filled. Where the read was
// interrupted nothing was taken, and it is tried again. Any other error is returned as it is.
#[cold]
fn buffered_after(refused: io::Error) -> io::Result<Buffered> {
    if refused.kind() == ErrorKind::Interrupted {
        Ok(Buffered::Part)
    } else {
        Err(refused)
    }
}

// Drops the end of a line, `\n` or `\r\n`, if it has one.
fn drop_end(line: &mut Vec<u8>) {
    if drop_last(line, b'\n') {
        let _ = drop_last(line, b'\r');
    }
}

// Drops the last byte where it is this one. Returns whether it was.
fn drop_last(line: &mut Vec<u8>, byte: u8) -> bool {
    let count = line.len();
    if count == 0 || line[count - 1] != byte {
        return false;
    }
    let _ = line.pop();
    true
}

/// Reads the pair of the line of this number, if there is such a line, in the texts that the types
/// of key and value have. The bytes of `line` are replaced.
#[inline]
pub fn read_pair<K: Text, V: Text, I: BufRead>(
    input: &mut I,
    line: &mut Vec<u8>,
    number: u64,
) -> Result<Option<(K, V)>, Failure> {
    if !read_line(input, line).map_err(Failure::Input)? {
        return Ok(None);
    }
    match parse_pair(line.as_slice(), OwnForms) {
        Ok(pair) => Ok(Some(pair)),
        Err(fault) => {
            left_out(input, line, number, fault)?;
            Ok(None)
        }
    }
}

// The key and the value of a line.
#[inline(always)]
fn parse_pair<K: Text, V: Text, F: Forms>(line: &[u8], forms: F) -> Result<(K, V), LineFault> {
    let (key, value) = parts_of::<V>(line, forms.delimiter(), forms.value())?;
    let Some(key) = K::parse(key, forms.key()) else {
        return Err(LineFault::Key);
    };
    let Some(value) = V::parse(value, forms.value()) else {
        return Err(LineFault::Value);
    };
    Ok((key, value))
}

/// Reads the line of this number, if there is such a line, and adds its pair. The bytes of `line`
/// are replaced. Returns whether a pair was added; else the pairs stay.
#[inline(always)]
pub fn add_pair<P: Pairs, F: Forms, I: BufRead>(
    input: &mut I,
    line: &mut Vec<u8>,
    number: u64,
    forms: F,
    pairs: &mut P,
) -> Result<bool, Failure> {
    if !read_line(input, line).map_err(Failure::Input)? {
        return Ok(false);
    }
    match add_line(line.as_slice(), forms, pairs) {
        Added::Pair => Ok(true),
        Added::Fault(fault) => {
            left_out(input, line, number, fault)?;
            Ok(false)
        }
        Added::NoMemory => Err(Failure::Memory),
    }
}

// Nothing where this line, of which no pair is read, is left out: it is empty, and no line comes
// after it. Else what is returned for it; then the line is as it was.
#[cold]
#[inline(never)]
fn left_out<I: BufRead>(
    input: &mut I,
    line: &mut Vec<u8>,
    number: u64,
    fault: LineFault,
) -> Result<(), Failure> {
    if is_left_out(input, line).map_err(Failure::Input)? {
        Ok(())
    } else {
        Err(Failure::Line { number, fault })
    }
}

/// Whether a line that was read, of which nothing is parsed, is left out: it is empty, and no line
/// comes after it. A line that comes after an empty one is taken from the input; `line` stays as
/// it was.
#[cold]
#[inline(never)]
pub(crate) fn is_left_out<I: BufRead>(input: &mut I, line: &mut Vec<u8>) -> io::Result<bool> {
    if !line.is_empty() {
        return Ok(false);
    }
    let is_next = read_line(input, line)?;
    line.clear();
    Ok(!is_next)
}

// Adds the pair of a line: the key and the value are on either side of the first byte that stands
// between them, or, where a value is nothing, the line without that byte is the key.
#[inline(always)]
fn add_line<P: Pairs, F: Forms>(line: &[u8], forms: F, pairs: &mut P) -> Added {
    match parts_of::<P::Value>(line, forms.delimiter(), forms.value()) {
        Ok((key, value)) => pairs.add(key, value, forms),
        Err(fault) => Added::Fault(fault),
    }
}

// What is on either side of the first delimiter of a line.
#[inline(always)]
fn parts_of<V: Text>(line: &[u8], delimiter: u8, form: Form) -> Result<(&[u8], &[u8]), LineFault> {
    match cut_at(line, delimiter) {
        Some(parts) => Ok(parts),
        None if V::wanted(form).is_nothing() => Ok((line, b"".as_slice())),
        None => Err(LineFault::NoTab),
    }
}
