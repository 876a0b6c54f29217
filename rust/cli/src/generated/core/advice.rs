// Generated from crates/odht_tool_core/src/advice.rt by make generate.
//! What helps where the searches of a table are long.

use crate::generated::core::arguments::is_stream;
use crate::generated::core::numbers::Numbers;
use crate::generated::raw::memory_layout::DEFAULT_GROUPS;
use crate::host::prelude::*;
use std::io::{self, Write};

/// What makes the searches of a table short.
#[derive(Clone, Copy)]
pub enum Advice {
    /// A lower load.
    LowerLoad,
    /// The hash function `xxh64`.
    Mixing,
}

impl Advice {
    // The words for it.
    fn reason(self) -> &'static str {
        match self {
            Advice::LowerLoad => "a lower load",
            Advice::Mixing => "another hash function",
        }
    }

    /// The options of `odht rebuild` for it, with `--whole` or without.
    pub fn options(self, is_whole: bool) -> &'static str {
        match (self, is_whole) {
            (Advice::LowerLoad, false) => "--percent 50",
            (Advice::LowerLoad, true) => "--percent 50 --whole",
            (Advice::Mixing, false) => "--hash xxh64",
            (Advice::Mixing, true) => "--hash xxh64 --whole",
        }
    }
}

/// Whether some search is above the bound with which `odht rebuild` checks a table before.
pub(crate) fn needs_whole(numbers: &Numbers) -> bool {
    numbers.longest_miss > DEFAULT_GROUPS
}

/// The name for `odht rebuild`, which takes files that contain only a table: FILE if this is
/// another file, or standard input.
pub(crate) fn rebuilt_name<'a>(at: Option<usize>, file: &'a str) -> &'a str {
    if at.is_some() || is_stream(file) {
        "FILE"
    } else {
        file
    }
}

/// Writes what helps: the words for it, and how a file of this name is rebuilt so.
pub(crate) fn write_help<O: Write>(
    advice: Advice,
    file: &str,
    is_whole: bool,
    output: &mut O,
) -> io::Result<()> {
    let (reason, options) = (advice.reason(), advice.options(is_whole));
    write!(output, "{reason}: odht rebuild {file} {options}")
}
