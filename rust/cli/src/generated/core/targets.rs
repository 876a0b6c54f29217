// Generated from crates/odht_tool_core/src/targets.rt by make generate.
//! The file that a new one is to replace: where it is, and what it has that the new one keeps.
use crate::generated::core::failure::Failure;
use crate::generated::core::front::begins_table;
use crate::generated::core::obstacles::{kept_mode, obstacle_of};
use crate::generated::header::header::HEADER_SIZE;
use crate::host::fs::{self, Metadata, OpenFile, OpenOptions, Permissions};
use crate::host::prelude::*;
use crate::host::rt::Files;
use crate::shim::Global;
use std::io::{self, ErrorKind, Read};
use std::os::fd::AsFd;
use std::os::unix::fs::{fchown, MetadataExt, PermissionsExt};

/// How many links the system follows.
const MOST_LINKS: usize = 40;

/// Where a file is to be made, or a regular file is to be replaced.
pub struct Target {
    // The name at which the links end.
    path: String,
    kept: Option<Kept>,
    allowed: Allowed,
}

/// Which files a command replaces.
#[derive(Clone, Copy)]
pub struct Allowed {
    /// One that has other names, which keep the old file.
    pub breaks_links: bool,
    /// One that is no table.
    pub any_content: bool,
}

/// What a new file keeps of the one that it replaces.
#[derive(Clone, Copy)]
pub(crate) struct Kept {
    mode: u32,
    owner: u32,
    group: u32,
}

impl Allowed {
    /// One that has no other names, and is a table.
    pub fn new() -> Allowed {
        Allowed { breaks_links: false, any_content: false }
    }
}

impl Target {
    /// Follows the links of the name, and looks whether a new file may replace what is there.
    ///
    /// It fails with [`Failure::Obstacle`] where what is there is not a regular file, where its
    /// owner may not write it, and where it has other names, unless that is allowed; with
    /// [`Failure::Write`] where the caller may not write it, where the system does not follow the
    /// links, or the file has no name where they end; with [`Failure::NoTable`] where it is no
    /// table by its header, and not empty, unless that is allowed; and without memory.
    pub fn find<R: Files + AllocGlobal>(
        rt: &R,
        path: &str,
        allowed: Allowed,
    ) -> Result<Target, Failure> {
        let there = if_there(fs::metadata(rt, path)).map_err(Failure::Write)?;
        if let Some(file) = &there {
            if let Some(obstacle) = obstacle_of(file.mode(), file.nlink(), allowed.breaks_links) {
                return Err(Failure::Obstacle(obstacle));
            }
        }
        let path = end_of_links(rt, path).map_err(Failure::of_writing)?;
        let here = if_there(fs::symlink_metadata(rt, path.as_str())).map_err(Failure::Write)?;
        if !is_same(&there, &here) {
            let error =
                io::Error::other("no name of the file is known, or it was replaced just now");
            return Err(Failure::Write(error));
        }
        if there.is_some() {
            check_content(rt, path.as_str(), allowed)?;
        }
        let kept = there.as_ref().map(Kept::of);
        Ok(Target { path, kept, allowed })
    }

    /// The same of a file that the command reads before it replaces it. [`Failure::Read`] where no
    /// file is there.
    pub fn find_table<R: Files + AllocGlobal>(
        rt: &R,
        path: &str,
        breaks_links: bool,
    ) -> Result<Target, Failure> {
        // What it reads is checked to be a table.
        let allowed = Allowed { breaks_links, any_content: true };
        let target = Target::find(rt, path, allowed)?;
        if target.kept.is_none() {
            fs::metadata(rt, path).map_err(Failure::Read)?;
        }
        Ok(target)
    }

    /// The name at which the links end.
    pub fn path(&self) -> &str {
        self.path.as_str()
    }

    /// What a new file keeps, where it replaces one.
    pub(crate) fn kept(&self) -> Option<Kept> {
        self.kept
    }

    /// The same as it is now, since another program may have changed the file. What is kept of a
    /// file that is no longer there is what was kept before.
    pub(crate) fn kept_now<R: Files + AllocGlobal>(&self, rt: &R) -> Result<Option<Kept>, Failure> {
        let target = Target::find(rt, self.path(), self.allowed)?;
        Ok(target.kept.or(self.kept))
    }
}

impl Kept {
    fn of(file: &Metadata) -> Kept {
        Kept { mode: file.mode(), owner: file.uid(), group: file.gid() }
    }

    /// Gives a file the owner and the group, where the system allows it, and then the permissions,
    /// narrowed where it does not.
    pub(crate) fn give<F: OpenFile + AsFd>(self, file: &F) -> io::Result<()> {
        // Whether the system allowed it is then read from the file.
        let _ = fchown(file, None, Some(self.group));
        let _ = fchown(file, Some(self.owner), None);
        let new = file.metadata()?;
        let (keeps_owner, keeps_group) = (new.uid() == self.owner, new.gid() == self.group);
        let mode = kept_mode(self.mode, keeps_owner, keeps_group);
        file.set_permissions(Permissions::from_mode(mode))
    }
}

/// Gives the owner of a file alone the right to read and to write it.
pub(crate) fn make_private<F: OpenFile>(file: &F) -> io::Result<()> {
    file.set_permissions(Permissions::from_mode(0o600))
}

/// The name that the new file has until it is stored.
pub(crate) fn beside(alloc: Global, path: &str) -> Result<String, Failure> {
    Ok(crate::host::texts::formatted(alloc, format_args!("{path}.new"))?)
}

// A failure where the caller may not write the file, or it is no table and has to be one.
fn check_content<R: Files>(rt: &R, path: &str, allowed: Allowed) -> Result<(), Failure> {
    // That the folder may be written would be enough to replace the file. It is opened and not
    // written.
    OpenOptions::new().write(true).open(rt, path).map_err(Failure::Write)?;
    if allowed.any_content || is_replaceable(rt, path).map_err(Failure::Read)? {
        Ok(())
    } else {
        Err(Failure::NoTable)
    }
}

// Whether a file is empty or begins with the header of a table. So is one that may not be read.
fn is_replaceable<R: Files>(rt: &R, path: &str) -> io::Result<bool> {
    let mut file = match fs::open(rt, path) {
        Ok(file) => file,
        Err(error) if error.kind() == ErrorKind::PermissionDenied => return Ok(true),
        Err(error) => return Err(error),
    };
    let len = file.metadata()?.len();
    if len < HEADER_SIZE as u64 {
        return Ok(len == 0);
    }
    let mut header = [0; HEADER_SIZE];
    file.read_exact(&mut header)?;
    Ok(begins_table(&header))
}

/// None where there is no file of the name.
pub(crate) fn if_there(found: io::Result<Metadata>) -> io::Result<Option<Metadata>> {
    match found {
        Ok(file) => Ok(Some(file)),
        Err(error) if error.kind() == ErrorKind::NotFound => Ok(None),
        Err(error) => Err(error),
    }
}

/// Whether both are the same file, or neither is there.
pub(crate) fn is_same(one: &Option<Metadata>, other: &Option<Metadata>) -> bool {
    match (one, other) {
        (Some(one), Some(other)) => one.dev() == other.dev() && one.ino() == other.ino(),
        (None, None) => true,
        _ => false,
    }
}

// The name at which the links of a name end, whether a file is there or not.
fn end_of_links<R: Files + AllocGlobal>(rt: &R, path: &str) -> io::Result<String> {
    let alloc: Global = rt.alloc();
    let mut name = crate::host::texts::copy_of(alloc, path)?;
    for _ in 0..=MOST_LINKS {
        match next_name(rt, name.as_str())? {
            Some(next) => name = next,
            None => return Ok(name),
        }
    }
    Err(crate::host::io::filesystem_loop())
}

// The name that a link leads to, where the name is that of a link: it begins at the folder that
// the link is in.
fn next_name<R: Files + AllocGlobal>(rt: &R, name: &str) -> io::Result<Option<String>> {
    let alloc: Global = rt.alloc();
    match if_there(fs::symlink_metadata(rt, name))? {
        Some(file) if file.is_symlink() => {}
        _ => return Ok(None),
    }
    let link = rt.read_link(alloc, name)?.into_string();
    match name.rsplit_once('/') {
        Some((folder, _)) if !link.as_str().starts_with("/") => {
            let link = link.as_str();
            Ok(Some(crate::host::texts::formatted(alloc, format_args!("{folder}/{link}"))?))
        }
        _ => Ok(Some(link)),
    }
}
