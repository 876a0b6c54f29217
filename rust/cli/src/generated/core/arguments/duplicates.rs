// Generated from crates/odht_tool_core/src/arguments/duplicates.rt by make generate.
//! Which line counts of those that have one key.

use crate::host::prelude::*;

/// Which line counts of those that have one key.
#[derive(Clone, Copy, Debug)]
pub enum Duplicates {
    /// The last.
    Last,
    /// The first; later ones are left out.
    First,
    /// A line whose key an earlier line had is a failure.
    Error,
}

impl Duplicates {
    /// What the word asks for: `last`, `first` or `error`.
    pub(crate) fn named(word: &str) -> Option<Duplicates> {
        match word {
            "last" => Some(Duplicates::Last),
            "first" => Some(Duplicates::First),
            "error" => Some(Duplicates::Error),
            _ => None,
        }
    }
}
