// Generated from crates/odht_tool_tables/src/lib.rt by make generate.
//! `odht_tool_tables`: what the commands that read tables and those that make them both need: the
//! bytes of a file, their whole check, and tables of lengths that are numbers.

use crate::host::prelude::*;

pub mod checks;
pub mod dynamic;
pub mod files;
pub mod generated;
mod short_inserts;
pub mod trials;
pub mod whole;
