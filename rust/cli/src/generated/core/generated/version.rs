// Generated from crates/odht_tool_core/src/generated/version.rt by make generate.
//! The version. Generated from packaging/VERSION by make generate.

use crate::host::prelude::*;

/// The version of the program, which is that of the library.
pub(crate) const VERSION: &str = "0.4.0";
