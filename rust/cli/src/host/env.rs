//! The arguments of the program.

use super::rt::HostRuntime;
use std::io::{Error, ErrorKind, Result};
use std::vec::IntoIter;

/// The arguments, the name of the program first. `InvalidData` where one is no text.
// Rust's std has copied them by then, and aborts where it has no memory for that.
pub fn args(_rt: &HostRuntime) -> Result<IntoIter<String>> {
    let words = std::env::args_os().map(|word| word.into_string());
    match words.collect::<std::result::Result<Vec<String>, _>>() {
        Ok(words) => Ok(words.into_iter()),
        Err(_) => Err(Error::from(ErrorKind::InvalidData)),
    }
}
