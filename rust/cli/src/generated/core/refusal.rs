// Generated from crates/odht_tool_core/src/refusal.rt by make generate.
//! The errors of tables, as the program writes them.

use crate::generated::core::shown::Shown;
use crate::generated::header::error::Error;
use crate::host::prelude::*;
use std::fmt;

/// An error of a table, with what can be done about it.
#[derive(Clone, Copy, Debug)]
pub struct Refusal(pub Error);

impl fmt::Display for Refusal {
    fn fmt(&self, f: &mut fmt::Formatter<'_>) -> fmt::Result {
        match self.0 {
            Error::WrongTag { found } => write_foreign(&found, f),
            error => {
                let advice = advice_of(&error);
                write!(f, "{error}{advice}")
            }
        }
    }
}

// What can be done about an error: of a bound of searches, that there need be none.
fn advice_of(error: &Error) -> &'static str {
    match error {
        Error::SearchTooLong { .. } => "; --whole works without this bound",
        _ => "",
    }
}

// Writes that these are not the first bytes of a table.
fn write_foreign(found: &[u8; 4], f: &mut fmt::Formatter<'_>) -> fmt::Result {
    write!(f, "not an odht table: it begins with")?;
    write_all_spaced(found, f)?;
    let shown = Shown(found);
    write!(f, ", {shown}")
}

// Writes a space and two digits in base 16 for each byte.
fn write_all_spaced(bytes: &[u8], f: &mut fmt::Formatter<'_>) -> fmt::Result {
    for byte in bytes {
        write_spaced_digits(*byte, f)?;
    }
    Ok(())
}

fn write_spaced_digits(byte: u8, f: &mut fmt::Formatter<'_>) -> fmt::Result {
    write!(f, " {byte:02x}")
}
