// Generated from crates/odht_tool_core/src/obstacles.rt by make generate.
//! Which files are replaced or read whole, and which permissions a new one gets, by the numbers that
//! the system gives of a file.

use crate::host::prelude::*;
use std::fmt;

const KIND_BITS: u32 = 0o170000;

const SOCKET: u32 = 0o140000;

const REGULAR: u32 = 0o100000;

const BLOCK_DEVICE: u32 = 0o060000;

const FOLDER: u32 = 0o040000;

const CHARACTER_DEVICE: u32 = 0o020000;

const FIFO: u32 = 0o010000;

const OWNER_MAY_WRITE: u32 = 0o200;

const ALL_MAY_ALL: u32 = 0o777;

/// Why a file is not replaced.
#[derive(Clone, Copy, Debug)]
pub enum Obstacle {
    Folder,
    Fifo,
    Device,
    Socket,
    /// It is no regular file, and none of those above.
    Irregular,
    /// Its owner may not write it.
    ReadOnly,
    /// It has so many names, of which all but one would keep the old file.
    Links {
        count: u64,
    },
}

impl fmt::Display for Obstacle {
    fn fmt(&self, f: &mut fmt::Formatter<'_>) -> fmt::Result {
        match *self {
            Obstacle::Folder => write!(f, "it is a folder, not a regular file"),
            Obstacle::Fifo => write!(f, "it is a FIFO, not a regular file"),
            Obstacle::Device => write!(f, "it is a device, not a regular file"),
            Obstacle::Socket => write!(f, "it is a socket, not a regular file"),
            Obstacle::Irregular => write!(f, "it is not a regular file"),
            Obstacle::ReadOnly => write!(f, "its owner may not write it"),
            Obstacle::Links { count } => write!(
                f,
                "it has {count} names (hard links), and the others would keep the old file; --break-links goes on"
            ),
        }
    }
}

/// Why the file of this mode, with its kind, and of that many names is not replaced, if there is a
/// reason.
pub fn obstacle_of(mode: u32, names: u64, breaks_links: bool) -> Option<Obstacle> {
    match irregular(mode & KIND_BITS) {
        Some(kind) => Some(kind),
        None if mode & OWNER_MAY_WRITE == 0 => Some(Obstacle::ReadOnly),
        None if names > 1 && !breaks_links => Some(Obstacle::Links { count: names }),
        None => None,
    }
}

// What is no regular file, by the bits of its kind.
fn irregular(kind: u32) -> Option<Obstacle> {
    if kind == REGULAR {
        None
    } else if kind == FOLDER {
        Some(Obstacle::Folder)
    } else if kind == FIFO {
        Some(Obstacle::Fifo)
    } else if kind == SOCKET {
        Some(Obstacle::Socket)
    } else if kind == BLOCK_DEVICE || kind == CHARACTER_DEVICE {
        Some(Obstacle::Device)
    } else {
        Some(Obstacle::Irregular)
    }
}

/// Whether a file of this mode, with its kind, is a device: its end may never come.
pub fn is_device(mode: u32) -> bool {
    let kind = mode & KIND_BITS;
    kind == BLOCK_DEVICE || kind == CHARACTER_DEVICE
}

/// The permissions of the file that replaces one of this mode, where the system has left the new
/// one with the owner and the group of the old one, or not.
///
/// Those who may have come into another class, as the former members of the group, get what both
/// classes had. So nobody but the new owner may do more than before. The rights to run as the
/// owner or the group go in any case.
pub fn kept_mode(mode: u32, keeps_owner: bool, keeps_group: bool) -> u32 {
    let of_owner = if keeps_owner { ALL_MAY_ALL } else { within_owner(mode) };
    let of_group = if keeps_group { ALL_MAY_ALL } else { in_both(mode) };
    mode & (of_owner & of_group)
}

// All bits of the owner, and of the group and the others those that the owner has too.
fn within_owner(mode: u32) -> u32 {
    0o700 | ((mode >> 3) & 0o070) | ((mode >> 6) & 0o007)
}

// All bits of the owner, and of the group and the others those that both have.
fn in_both(mode: u32) -> u32 {
    0o700 | ((mode & 0o007) << 3) | ((mode >> 3) & 0o007)
}
