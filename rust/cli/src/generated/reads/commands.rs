// Generated from crates/odht_tool_reads/src/commands.rt by make generate.
//! The commands, a module each.

use crate::host::prelude::*;

pub mod check;
pub mod count;
pub mod diff;
pub mod dump;
pub mod find;
pub mod get;
pub mod keys;
pub mod order;
