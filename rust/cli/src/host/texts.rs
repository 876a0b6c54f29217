//! Texts whose memory may be refused.

use crate::shim::{AllocError, Global};
use std::fmt::{self, Arguments, Write};

/// A copy of a text.
pub fn copy_of(_alloc: Global, text: &str) -> Result<String, AllocError> {
    let mut copy = String::new();
    copy.try_reserve_exact(text.len()).map_err(|_| AllocError)?;
    copy.push_str(text);
    Ok(copy)
}

/// What `format!` makes.
pub fn formatted(_alloc: Global, arguments: Arguments<'_>) -> Result<String, AllocError> {
    let mut text = Growing(String::new());
    // nothing that is written here fails but for memory
    text.write_fmt(arguments).map_err(|_| AllocError)?;
    Ok(text.0)
}

// A text that is written to.
struct Growing(String);

impl Write for Growing {
    fn write_str(&mut self, part: &str) -> fmt::Result {
        self.0.try_reserve(part.len()).map_err(|_| fmt::Error)?;
        self.0.push_str(part);
        Ok(())
    }
}

/// The text of a path.
pub struct PathText(String);

impl PathText {
    /// The path of a text.
    pub fn of(text: String) -> PathText {
        PathText(text)
    }

    /// Its text.
    pub fn into_string(self) -> String {
        self.0
    }
}

#[cfg(test)]
mod tests {
    use super::*;

    #[test]
    fn texts_are_copied_and_formatted() {
        assert_eq!(copy_of(Global, "").as_deref(), Ok(""));
        assert_eq!(copy_of(Global, "a table").as_deref(), Ok("a table"));
        assert_eq!(formatted(Global, format_args!("{}/{}", "a", 1)).as_deref(), Ok("a/1"));
    }
}
