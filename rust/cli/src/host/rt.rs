//! The system: its memory, its streams, its files and its clock, each as a trait.

use super::fs::OpenFile;
use super::io::{Standard, Stream};
use super::texts::PathText;
use crate::shim::Global;
use std::fs::{self, File, Metadata};
use std::io::{self, Read, Write};
use std::time::Instant;

/// The system.
pub struct HostRuntime;

impl HostRuntime {
    /// Standard input, without a buffer.
    pub fn stdin(&self) -> Stream {
        Stream::of(Standard::Input)
    }

    /// Standard output, without a buffer.
    pub fn stdout(&self) -> Stream {
        Stream::of(Standard::Output)
    }

    /// Standard error, without a buffer.
    pub fn stderr(&self) -> Stream {
        Stream::of(Standard::Errors)
    }
}

/// Memory.
pub trait AllocGlobal {
    /// The allocator.
    fn alloc(&self) -> Global;
}

impl AllocGlobal for HostRuntime {
    fn alloc(&self) -> Global {
        Global
    }
}

/// A clock.
pub trait Clock {
    /// A time that never goes back.
    fn now(&self) -> Instant;
}

impl Clock for HostRuntime {
    fn now(&self) -> Instant {
        Instant::now()
    }
}

/// The file system. Rust's std allocates a path of more than some hundred bytes for a call, and aborts without memory.
pub trait Files {
    /// An open file.
    type File: Read + Write + OpenFile;

    /// Opens a file.
    fn open_file(&self, how: &fs::OpenOptions, path: &str) -> io::Result<Self::File>;

    /// What the system has about a file. Links are followed.
    fn metadata(&self, path: &str) -> io::Result<Metadata>;

    /// The same of a link itself.
    fn symlink_metadata(&self, path: &str) -> io::Result<Metadata>;

    /// Gives a file another name, which other files lose.
    fn rename(&self, from: &str, to: &str) -> io::Result<()>;

    /// Removes a file.
    fn remove_file(&self, path: &str) -> io::Result<()>;

    /// What a link leads to. An error where that is no text.
    fn read_link(&self, alloc: Global, path: &str) -> io::Result<PathText>;
}

impl Files for HostRuntime {
    type File = File;

    fn open_file(&self, how: &fs::OpenOptions, path: &str) -> io::Result<File> {
        how.open(path)
    }

    fn metadata(&self, path: &str) -> io::Result<Metadata> {
        fs::metadata(path)
    }

    fn symlink_metadata(&self, path: &str) -> io::Result<Metadata> {
        fs::symlink_metadata(path)
    }

    fn rename(&self, from: &str, to: &str) -> io::Result<()> {
        fs::rename(from, to)
    }

    fn remove_file(&self, path: &str) -> io::Result<()> {
        fs::remove_file(path)
    }

    fn read_link(&self, _alloc: Global, path: &str) -> io::Result<PathText> {
        match fs::read_link(path)?.into_os_string().into_string() {
            Ok(text) => Ok(PathText::of(text)),
            Err(_) => Err(io::Error::other("invalid filename")),
        }
    }
}
