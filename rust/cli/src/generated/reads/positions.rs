// Generated from crates/odht_tool_reads/src/positions.rt by make generate.
//! `odht get` and `odht count` of a regular file that is read by position: its header, and for
//! `get` some groups of slots until they tell the hash function, and what lookups read. Where that
//! does not do, all bytes are read as for other commands.

use crate::generated::core::any::{read_any, AnyShape};
use crate::generated::core::arguments::is_stream;
use crate::generated::core::failure::Failure;
use crate::generated::core::forms::Kinds;
use crate::generated::core::json::answers::Printed;
use crate::generated::core::shapes::Hash;
use crate::generated::core::status::Status;
use crate::generated::reads::lookups::arriving::Arriving;
use crate::generated::reads::lookups::Coming;
use crate::generated::tables::memory_layout::{Header, HEADER_SIZE};
use crate::generated::tables::read_at::{read_exact_at, ReadAt};
use crate::host::fs::{self, OpenFile};
use crate::host::prelude::*;
use crate::host::rt::Files;
use crate::shim::Global;
use std::io::{BufRead, Write};
use std::os::unix::fs::FileExt;

mod counts;
mod lines;
mod lookups;
mod names;
mod remembered;
mod shaped;
mod source;

pub use counts::count_at;
use names::named_or_left_hash;
use remembered::Remembered;
use shaped::{lines_of, words_of, Found};
pub use source::FileSource;

/// How many bytes are read at first: the header, and in most tables the entries of sixteen slots.
const FRONT: usize = 4096;

/// How many bytes a file has for each byte of the lines of keys that are looked up in it by position.
/// A line has some ten bytes: to look it up takes as long as to read fewer bytes than ten times this.
const FILE_BYTES: u64 = 1 << 14;

/// The least length of a file whose first slots are read before all bytes: to read a shorter one
/// takes no longer.
const LARGE: u64 = 1 << 24;

/// Whether lines of that many bytes are few for a file of that many.
pub fn are_few(input_len: u64, file_len: usize) -> bool {
    input_len <= most_few(file_len)
}

/// How many bytes of lines are few for a file of that many bytes.
pub fn most_few(file_len: usize) -> u64 {
    file_len as u64 / FILE_BYTES
}

/// A regular file as a source of bytes, and its length. None for any other file, for standard
/// input, and where the file cannot be opened.
pub fn open_regular<R: Files>(rt: &R, file: &str) -> Option<(FileSource<R::File>, usize)>
where
    R::File: FileExt,
{
    // To open a pipe would wait for its writer.
    if is_stream(file) || !fs::metadata(rt, file).ok()?.is_file() {
        return None;
    }
    let file = fs::open(rt, file).ok()?;
    let found = file.metadata().ok()?;
    if !found.is_file() {
        return None;
    }
    let len = usize::try_from(found.len()).ok()?;
    Some((FileSource::new(file), len))
}

/// Fails with `NoHash` if no hash function is named, and the first slots of the table in this large
/// file exclude each. A command that needs a hash function would fail so once it has read all bytes.
/// A short file passes, and one that is not regular or cannot be opened: reading it says why.
pub fn check_hash<R: Files + AllocGlobal>(
    rt: &R,
    file: &str,
    at: Option<usize>,
    hash: Option<Hash>,
    kinds: Kinds,
) -> Result<(), Failure>
where
    R::File: FileExt,
{
    match fs::metadata(rt, file) {
        Ok(found) if hash.is_none() && found.len() >= LARGE => {}
        _ => return Ok(()),
    }
    let Some((source, len)) = open_regular(rt, file) else {
        return Ok(());
    };
    let asked = Asked {
        alloc: rt.alloc(),
        at,
        hash,
        kinds,
        bound: None,
        printed: Printed { is_json: false, is_values: false },
        most: None,
    };
    check_hash_at(&asked, &source, len)
}

/// The same of a source of that many bytes.
pub fn check_hash_at<S: ReadAt>(asked: &Asked, source: &S, len: usize) -> Result<(), Failure> {
    let _found = found_in(asked, source, len)?;
    Ok(())
}

/// What is asked of a table that is read by position.
#[derive(Clone, Copy)]
pub struct Asked {
    /// Where memory is taken.
    pub alloc: Global,
    /// The offset of the table. None where it is all of the file.
    pub at: Option<usize>,
    /// The hash function that is named.
    pub hash: Option<Hash>,
    /// What is said of keys and values.
    pub kinds: Kinds,
    /// The bound of searches, in groups, where there is one.
    pub bound: Option<usize>,
    /// What is printed of each key.
    pub printed: Printed,
    /// The most bytes of lines whose keys are looked up, as they come. None where the keys of all
    /// lines are.
    pub most: Option<u64>,
}

/// How far the lines of an input were answered.
#[derive(Clone, Copy)]
pub enum Reached {
    /// To their end.
    End(Status),
    /// As far as these, which are left.
    Line(Coming),
}

/// The header of a table, and where its bytes are in a source.
struct Start {
    header: [u8; HEADER_SIZE],
    at: u64,
    len: usize,
}

// Reads the header of the table that begins at the offset, or of one that is all of the source.
// None where there is no table by the header, or a read failed.
fn read_start<S: ReadAt>(source: &S, len: usize, offset: Option<usize>) -> Option<Start> {
    let at = offset.unwrap_or(0);
    let rest = len.checked_sub(at)?;
    if rest < HEADER_SIZE {
        return None;
    }
    let mut header = [0; HEADER_SIZE];
    read_exact_at(source, at as u64, &mut header).ok()?;
    let len = match offset {
        None => rest,
        Some(_) => front_len(&header, rest)?,
    };
    Some(Start { header, at: at as u64, len })
}

// How many bytes the table of this header has, at the front of that many.
fn front_len(header: &[u8], found: usize) -> Option<usize> {
    let header = Header::of(header);
    let layout = header.layout();
    match header.layout_len(layout, found) {
        Ok(len) => {
            if len <= found {
                Some(len)
            } else {
                None
            }
        }
        Err(_) => None,
    }
}

/// `odht get` of a source of that many bytes, for the words of the command line. None where the
/// source is not read by position: a read failed, or its bytes are not opened, or too many of them
/// would be read to know the hash function, or the search for a key reads more than
/// [`DEFAULT_GROUPS`](odht::memory_layout::DEFAULT_GROUPS) groups. Nothing was written then, and
/// reading all bytes gives the answer, with the bound of searches. `NoHash` where the first slots
/// exclude each hash function.
///
/// Over any source, for any list of bytes that it gives in each read: what is written is what
/// [`get_file_words`](crate::generated::reads::commands::get::get_file_words) writes of the table in this list, with
/// the hash function that the first slots leave where none is named.
pub fn get_words_at<S: ReadAt, O: Write>(
    asked: &Asked,
    source: S,
    len: usize,
    words: &[String],
    output: &mut O,
) -> Result<Option<Status>, Failure> {
    let mut room = [0; FRONT];
    let Some(few) = read_front(&source, len, asked.at, &mut room) else {
        return Ok(None);
    };
    let source = Remembered { source, at: asked.at.unwrap_or(0) as u64, bytes: &room[..few] };
    let Some(found) = found_in(asked, &source, len)? else {
        return Ok(None);
    };
    words_of(asked, source, found, words, output)
}

/// The same for the lines of an input, each of which is answered before the next one is read, until
/// more bytes of them than `asked.most` were read. None where [`get_words_at`] returns it: then
/// nothing was written, and no line was read. A lookup whose read fails, or whose search is longer
/// than the bound, is a failure of the file.
///
/// Over any source, for any list of bytes that it gives in each read: what is written is what
/// [`get_file_lines`](crate::generated::reads::commands::get::get_file_lines) writes of the table in this list as one
/// of keys and values of these types, with the hash function that the first slots leave where none
/// is named.
pub fn get_lines_at<S: ReadAt, I: BufRead + Arriving, O: Write>(
    asked: &Asked,
    source: S,
    len: usize,
    input: &mut I,
    output: &mut O,
) -> Result<Option<Reached>, Failure> {
    let mut room = [0; FRONT];
    let Some(few) = read_front(&source, len, asked.at, &mut room) else {
        return Ok(None);
    };
    let source = Remembered { source, at: asked.at.unwrap_or(0) as u64, bytes: &room[..few] };
    let Some(found) = found_in(asked, &source, len)? else {
        return Ok(None);
    };
    lines_of(asked, source, found, input, output)
}

// Reads the first bytes of the table into the room. Returns how many: all that there are, or as many
// as the room has. None where the read failed.
fn read_front<S: ReadAt>(
    source: &S,
    len: usize,
    offset: Option<usize>,
    room: &mut [u8; FRONT],
) -> Option<usize> {
    let at = offset.unwrap_or(0);
    let few = len.saturating_sub(at).min(FRONT);
    let (front, _) = room.split_at_mut(few);
    read_exact_at(source, at as u64, front).ok()?;
    Some(few)
}

// Where the table is, and what its header and its first slots tell of it. None where it is not read
// by position. An error where its slots fit no hash function.
fn found_in<S: ReadAt>(asked: &Asked, source: &S, len: usize) -> Result<Option<Found>, Failure> {
    let Some(start) = read_start(source, len, asked.at) else {
        return Ok(None);
    };
    let kinds = asked.kinds;
    let Some(name) = named_or_left_hash(source, &start, asked.hash, kinds.hash)? else {
        return Ok(None);
    };
    let Ok(found) = read_any(&start.header, name, kinds) else {
        return Ok(None);
    };
    let (shape, forms) = found;
    Ok(Some(Found { at: start.at, len: start.len, shape: shape.types(), forms }))
}
