// Generated from crates/odht_tool_tables/src/generated.rt by make generate.
//! What is generated: the way from a shape to its configuration.

use crate::host::prelude::*;

pub mod shapes;
