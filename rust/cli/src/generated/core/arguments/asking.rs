// Generated from crates/odht_tool_core/src/arguments/asking.rt by make generate.
//! The words that ask for a text of the program where a command may stand.

use crate::generated::core::near::is_near;
use crate::host::prelude::*;

/// A word that asks for a text of the program; or `version`, which somebody takes for one.
#[derive(Clone, Copy)]
pub(super) enum Asking {
    Help,
    LongHelp,
    LongVersion,
    Version,
}

const ASKING: [Asking; 4] = [Asking::Help, Asking::LongHelp, Asking::LongVersion, Asking::Version];

impl Asking {
    /// The first of these that one slip makes of the word.
    pub(super) fn nearest(word: &str) -> Option<Asking> {
        ASKING.iter().copied().find(|asking| is_near(asking.name().as_bytes(), word.as_bytes()))
    }

    // The word.
    fn name(self) -> &'static str {
        match self {
            Asking::Help => "help",
            Asking::LongHelp => "--help",
            Asking::LongVersion => "--version",
            Asking::Version => "version",
        }
    }

    /// The word that the program takes.
    pub(super) fn meant(self) -> &'static str {
        match self {
            Asking::Version => "--version",
            _ => self.name(),
        }
    }
}
