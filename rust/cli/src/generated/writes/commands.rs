// Generated from crates/odht_tool_writes/src/commands.rt by make generate.
//! The commands, a module each.

use crate::host::prelude::*;

pub mod build;
pub mod delete;
pub mod delete_lines;
pub mod merge;
mod merged_hash;
pub mod rebuild;
