// Generated from crates/odht_tool_writes/src/dynamic.rt by make generate.
//! Tables of lengths that are numbers, by command.

use crate::host::prelude::*;

pub mod deletes;
pub mod merges;
