//! Erases the ghost parts of Rattle sources, which leaves Rust. Each token is kept, dropped or replaced by a rule, and
//! what no rule knows is an error with its file and line. README.md lists the rules.

#![forbid(unsafe_code)]
#![deny(missing_docs)]

mod attributes;
mod calls;
mod exports;
mod files;
mod ghosts;
mod indexes;
mod known;
mod programs;
mod rules;
mod source;
mod tokens;
mod uses;

use std::collections::BTreeSet;

pub use files::{declared_in, erase_all, Counts};

/// What is made of several Rattle crates: modules of Rust crates.
#[derive(Clone, Copy)]
pub struct Plan<'p> {
    /// The crates, lowest first.
    pub crates: &'p [Crate<'p>],
    /// Traits that say something in contracts alone.
    pub dropped_traits: &'p [&'p str],
    /// Modules of laws, as `CRATE::MODULE`.
    pub dropped_modules: &'p [&'p str],
    /// Functions whose index expressions are written as `index!`, which does not check them.
    pub unchecked: &'p [Unchecked<'p>],
    /// Functions in which the slot count that is read is compared with the length of the bytes.
    pub slot_counts: &'p [SlotCount<'p>],
    /// Enums that may get more variants: the file of each, as in `unchecked`, and its name.
    pub open_enums: &'p [(&'p str, &'p str)],
    /// Constants with another text in what is made: the file of each, as in `unchecked`, its name, and the new text.
    pub texts: &'p [(&'p str, &'p str, &'p str)],
}

/// A function whose index expressions are proved to be in bounds, and are not checked.
#[derive(Clone, Copy)]
pub struct Unchecked<'p> {
    /// Its file, as `CRATE/PATH` without the ending.
    pub file: &'p str,
    /// Its name.
    pub function: &'p str,
    /// The proved clause from which each index of the function is in bounds, or the definition that it names.
    pub clause: &'p str,
    /// The file that has the clause, word for word.
    pub stated: &'p str,
}

/// A function that reads `slots` from the header of `bytes`.
#[derive(Clone, Copy)]
pub struct SlotCount<'p> {
    /// Its file, as `CRATE/PATH` without the ending.
    pub file: &'p str,
    /// Its name.
    pub function: &'p str,
    /// The type of what has the bytes.
    pub store: &'p str,
    /// The lengths of keys and values there, as an expression.
    pub layout: &'p str,
}

/// A Rattle crate, and what becomes of it.
#[derive(Clone, Copy)]
pub struct Crate<'p> {
    /// Its name.
    pub name: &'p str,
    /// The path of its module in the Rust crate, without `crate::`.
    pub module: &'p str,
    /// The file of this module without its ending, and the folder of the modules in it.
    pub to: &'p str,
    /// Whether it is of a program. Then it uses the system and allocates, by the module `host` of the Rust crate, which
    /// has what differs from Rust's std.
    pub is_of_program: bool,
}

/// The Rust of a source.
pub struct Erased {
    /// The text. It is not in the layout of rustfmt.
    pub text: String,
    /// What was replaced.
    pub replaced: Vec<Replaced>,
    /// How many tokens there were, without spaces and comments.
    pub tokens: usize,
    /// How many of them were dropped, those that were replaced left out.
    pub dropped: usize,
}

/// Code that was replaced.
#[derive(Clone, Debug, PartialEq, Eq)]
pub struct Replaced {
    /// Its line, from 1.
    pub line: usize,
    /// What it was.
    pub old: String,
    /// What it is now.
    pub new: String,
}

/// Erases a source of a crate of the plan. The path is that of [`Unchecked::file`]. `declared` are the functions of all
/// sources; a method that is neither one of them nor known to be the same in Rust is an error.
pub fn erase(
    plan: &Plan<'_>,
    krate: &Crate<'_>,
    path: &str,
    declared: &BTreeSet<String>,
    source: &str,
) -> Result<Erased, String> {
    let source = source::Source::new(source, krate.module)?;
    let mut eraser = rules::Eraser { source, plan, krate, path, declared };
    eraser.erase()?;
    eraser.check()?;
    if krate.is_of_program {
        eraser.import_host();
    } else {
        eraser.import_lists();
    }
    Ok(eraser.source.erased())
}
