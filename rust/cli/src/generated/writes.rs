// Generated from crates/odht_tool_writes/src/lib.rt by make generate.
//! `odht_tool_writes`: the commands of `odht_tool` that make tables or replace them.

use crate::host::prelude::*;

pub mod commands;
mod dynamic;
mod inserts;
mod reports;
mod starts;
mod warnings;
