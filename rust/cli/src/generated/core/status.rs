// Generated from crates/odht_tool_core/src/status.rt by make generate.
//! How a run of the program ended.

use crate::generated::core::arguments::Topic;
use crate::generated::core::failure::Failure;
use crate::host::prelude::*;
use std::io;

/// How a run ended.
#[derive(Clone, Copy)]
pub enum Status {
    /// All was done.
    Done,
    /// A table was rejected, a key is absent, tables differ, or a command failed that has no such
    /// answer.
    NotDone,
    /// The words cannot be parsed.
    Misused,
    /// `get`, `delete` or `diff` failed.
    Trouble,
}

impl Status {
    /// The exit status that stands for it.
    pub fn code(self) -> u8 {
        match self {
            Status::Done => 0,
            Status::NotDone => 1,
            Status::Misused | Status::Trouble => 2,
        }
    }

    /// Whether all was done.
    pub fn is_done(self) -> bool {
        match self {
            Status::Done => true,
            _ => false,
        }
    }

    /// `Done` where all is as it should be, and else `NotDone`.
    pub fn of(is_done: bool) -> Status {
        if is_done {
            Status::Done
        } else {
            Status::NotDone
        }
    }

    /// How a command ends if it fails: `Trouble` if `NotDone` is one of its answers, that a key is
    /// absent or that tables differ.
    pub fn of_failure(topic: Topic) -> Status {
        match topic {
            Topic::Get | Topic::Delete | Topic::Diff => Status::Trouble,
            _ => Status::NotDone,
        }
    }
}

/// The end of a command that did nothing but write.
pub fn of_output(written: io::Result<()>) -> Result<Status, Failure> {
    written.map_err(Failure::Output)?;
    Ok(Status::Done)
}
