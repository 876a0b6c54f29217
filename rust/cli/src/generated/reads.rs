// Generated from crates/odht_tool_reads/src/lib.rt by make generate.
//! `odht_tool_reads`: the commands of `odht_tool` that read tables and write none.

use crate::host::prelude::*;

pub mod bounds;
pub mod commands;
mod dynamic;
pub mod lookups;
pub mod positions;
