// Generated from crates/odht_tool_core/src/generated.rt by make generate.
//! What is generated: commands and their help, the ready shapes, the version.

use crate::host::prelude::*;

pub(crate) mod help;
pub(crate) mod shapes;
pub(crate) mod topics;
pub(crate) mod version;
