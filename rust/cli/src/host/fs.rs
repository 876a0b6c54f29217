//! Files, each call with the system that it goes to.

use super::rt::Files;
use std::fs::File;
use std::io;

pub use std::fs::{Metadata, Permissions};

/// Opens a file to be read.
pub fn open<R: Files>(rt: &R, path: &str) -> io::Result<R::File> {
    OpenOptions::new().read(true).open(rt, path)
}

/// What the system has about a file. Links are followed.
pub fn metadata<R: Files>(rt: &R, path: &str) -> io::Result<Metadata> {
    rt.metadata(path)
}

/// The same of a link itself.
pub fn symlink_metadata<R: Files>(rt: &R, path: &str) -> io::Result<Metadata> {
    rt.symlink_metadata(path)
}

/// Gives a file another name, which other files lose.
pub fn rename<R: Files>(rt: &R, from: &str, to: &str) -> io::Result<()> {
    rt.rename(from, to)
}

/// Removes a file.
pub fn remove_file<R: Files>(rt: &R, path: &str) -> io::Result<()> {
    rt.remove_file(path)
}

/// How a file is opened.
pub struct OpenOptions(std::fs::OpenOptions);

impl OpenOptions {
    /// Nothing is allowed yet.
    pub fn new() -> OpenOptions {
        OpenOptions(std::fs::OpenOptions::new())
    }

    /// Whether it may be read.
    pub fn read(&mut self, read: bool) -> &mut OpenOptions {
        self.0.read(read);
        self
    }

    /// Whether it may be written.
    pub fn write(&mut self, write: bool) -> &mut OpenOptions {
        self.0.write(write);
        self
    }

    /// Whether it is made, and must not be there.
    pub fn create_new(&mut self, create_new: bool) -> &mut OpenOptions {
        self.0.create_new(create_new);
        self
    }

    /// Opens the file.
    pub fn open<R: Files>(&self, rt: &R, path: &str) -> io::Result<R::File> {
        rt.open_file(&self.0, path)
    }
}

impl super::os::unix::fs::OpenOptionsExt for OpenOptions {
    fn mode(&mut self, mode: u32) -> &mut OpenOptions {
        std::os::unix::fs::OpenOptionsExt::mode(&mut self.0, mode);
        self
    }
}

/// The methods of a file that is open.
pub trait OpenFile {
    /// What the system has about it.
    fn metadata(&self) -> io::Result<Metadata>;

    /// Gives it these permissions.
    fn set_permissions(&self, permissions: Permissions) -> io::Result<()>;

    /// Waits until all of it is stored.
    fn sync_all(&self) -> io::Result<()>;
}

impl OpenFile for File {
    fn metadata(&self) -> io::Result<Metadata> {
        File::metadata(self)
    }

    fn set_permissions(&self, permissions: Permissions) -> io::Result<()> {
        File::set_permissions(self, permissions)
    }

    fn sync_all(&self) -> io::Result<()> {
        File::sync_all(self)
    }
}
