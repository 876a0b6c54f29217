// Generated from crates/odht_tool_reads/src/dynamic.rt by make generate.
//! Tables of lengths that are numbers, by command.

use crate::host::prelude::*;

pub mod diffs;
pub mod gets;
