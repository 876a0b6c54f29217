// Generated from crates/odht_tool_core/src/new_file.rt by make generate.
//! The new file that replaces an older one. It is made before that one is read, so that no two runs
//! are at work on one file.

use crate::generated::core::failure::Failure;
use crate::generated::core::status::Status;
use crate::generated::core::targets::{beside, if_there, is_same, make_private, Kept, Target};
use crate::host::fs::{self, OpenFile, OpenOptions};
use crate::host::os::unix::fs::OpenOptionsExt;
use crate::host::prelude::*;
use crate::host::rt::Files;
use std::io::{self, ErrorKind, Write};
use std::os::fd::AsFd;

/// A new file beside its target. While it has its name no other run makes one.
pub struct NewFile<F> {
    target: Target,
    // The name of the target with `.new` after it.
    name: String,
    file: F,
}

impl<F> NewFile<F> {
    /// The name of the file that it replaces.
    pub fn path(&self) -> &str {
        self.target.path()
    }
}

/// Makes the new file of a target, which has no bytes yet. Where the target is there, nobody but
/// the owner of the new file may read it.
///
/// It fails with [`Failure::Beside`] where a file of its name is there: another run is at work. The
/// caller hands what it returns to [`ended`], whether or not it fails later.
pub fn make_new<R: Files + AllocGlobal>(
    rt: &R,
    target: Target,
) -> Result<NewFile<R::File>, Failure> {
    let name = beside(rt.alloc(), target.path())?;
    let mode = if target.kept().is_some() { 0o600 } else { 0o666 };
    let made = OpenOptions::new().write(true).create_new(true).mode(mode).open(rt, name.as_str());
    match made {
        Ok(file) => Ok(NewFile { target, name, file }),
        Err(error) if error.kind() == ErrorKind::AlreadyExists => Err(Failure::Beside(name)),
        Err(error) => Err(Failure::Write(error)),
    }
}

/// Writes the new file, asks the system to store it, and renames it to the name of the target. On
/// a failure the target is unchanged, but after [`Failure::Folder`].
///
/// Where the target is there, nobody but the owner of the new file may read it while it is
/// written; then it gets the permissions, owner and group that it keeps. A target that has become
/// none is rejected, as by [`Target::find`].
pub fn replace_file<R: Files + AllocGlobal>(
    rt: &R,
    new: &mut NewFile<R::File>,
    bytes: &[u8],
) -> Result<(), Failure>
where
    R::File: AsFd,
{
    let kept = new.target.kept_now(rt)?;
    write_new(new, kept, bytes).map_err(Failure::Write)?;
    if !is_own(rt, new).map_err(Failure::Write)? {
        let error = io::Error::other("its new file was removed or replaced");
        return Err(Failure::Write(error));
    }
    fs::rename(rt, new.name.as_str(), new.path()).map_err(Failure::Write)?;
    store_name(rt, new.path()).map_err(Failure::Folder)
}

/// How a command ends that did this with its new file. One that replaced nothing is removed.
pub fn ended<R: Files>(
    rt: &R,
    new: NewFile<R::File>,
    done: Result<Status, Failure>,
) -> Result<Status, Failure> {
    // A new file that cannot be removed remains, and the next run reports it.
    if let Ok(true) = is_own(rt, &new) {
        let _ = fs::remove_file(rt, new.name.as_str());
    }
    done
}

fn write_new<F: Write + OpenFile + AsFd>(
    new: &mut NewFile<F>,
    kept: Option<Kept>,
    bytes: &[u8],
) -> io::Result<()> {
    if kept.is_some() {
        // The target may have come after the new file was made.
        make_private(&new.file)?;
    }
    new.file.write_all(bytes)?;
    if let Some(kept) = kept {
        kept.give(&new.file)?;
    }
    new.file.sync_all()
}

// Whether the name is still that of the new file: another run may have it, where somebody removed
// the file.
fn is_own<R: Files>(rt: &R, new: &NewFile<R::File>) -> io::Result<bool> {
    let there = if_there(fs::symlink_metadata(rt, new.name.as_str()))?;
    Ok(is_same(&Some(new.file.metadata()?), &there))
}

// Asks the system to store the names in the folder of a file. A folder that may not be read cannot
// be opened for this, and some file systems do not take the request.
fn store_name<R: Files>(rt: &R, path: &str) -> io::Result<()> {
    match store_folder(rt, folder_of(path)) {
        Err(error) if is_not_taken(error.kind()) => Ok(()),
        done => done,
    }
}

fn store_folder<R: Files>(rt: &R, folder: &str) -> io::Result<()> {
    let folder = fs::open(rt, folder)?;
    folder.sync_all()
}

fn is_not_taken(kind: ErrorKind) -> bool {
    match kind {
        ErrorKind::PermissionDenied | ErrorKind::InvalidInput => true,
        _ => false,
    }
}

// The folder of a file of this name.
fn folder_of(path: &str) -> &str {
    match path.rsplit_once('/') {
        Some(("", _)) => "/",
        Some((folder, _)) => folder,
        None => ".",
    }
}
