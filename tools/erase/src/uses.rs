//! Paths, in `use` items and elsewhere, and the import that a file without std needs.

use crate::known::{
    HOST_PATHS, NUMBERS, SAME_OF_NUMBERS, SAME_OF_PROGRAMS, SAME_PATHS, SHIM_PATHS,
};
use crate::rules::Eraser;
use crate::source::Done;

impl Eraser<'_> {
    /// A `use`: of std it must be a path that is known; names of dropped traits are dropped; paths of the crates are
    /// those of their modules.
    pub fn use_item(&mut self, at: usize) -> Done<Option<usize>> {
        if !self.source.is(at, "use") {
            return Ok(None);
        }
        let Some(end) = self.source.find(at..self.source.len(), &[";"]) else {
            return self.source.fail(at, "a use without an end");
        };
        let open = self.source.find(at..end, &["{"]);
        let names = self.used_names(open, end)?;
        if self.source.is(at + 1, "std") {
            self.use_of_std(at, open, &names)?;
        } else {
            for i in at + 1..end {
                self.path(i)?;
            }
        }
        self.drop_names(at, open, end, &names)?;
        Ok(Some(end))
    }

    // The places of the names: those of the list, or the last of the path.
    fn used_names(&self, open: Option<usize>, end: usize) -> Done<Vec<usize>> {
        let Some(open) = open else { return Ok(vec![end - 1]) };
        if let Some(other) = self.source.find(open + 1..end - 1, &["{", "*", ":", "as"]) {
            return self.source.fail(other, "a use list of an unknown form");
        }
        Ok((open + 1..end - 1).filter(|i| !self.source.is(*i, ",")).collect())
    }

    fn use_of_std(&mut self, at: usize, open: Option<usize>, names: &[usize]) -> Done<()> {
        let last = open.map_or(names[0], |open| open);
        let folder: String = (at + 1..last).map(|i| self.source.text(i)).collect();
        let is_kept = |i: &&usize| !self.is_dropped(**i);
        let path = |i: &usize| format!("{folder}{}", self.source.text(*i));
        let paths: Vec<String> = names.iter().filter(is_kept).map(path).collect();
        let is_of_shim = |path: &String| SHIM_PATHS.contains(&path.as_str());
        let is_of_host = |path: &String| HOST_PATHS.contains(&path.as_str());
        let is_known = |path: &String| is_of_host(path) || self.is_same(path);
        if self.krate.is_of_program && paths.iter().any(is_of_host) && paths.iter().all(is_known) {
            self.source.replace(at + 1, at + 1, "crate::host");
        } else if paths == ["std::simd::prelude::*"] {
            self.source.replace(at + 1, names[0], "crate::shim::u8x16");
        } else if !paths.is_empty() && paths.iter().all(is_of_shim) {
            self.source.replace(at + 1, at + 4, "crate::shim");
        } else if !paths.iter().all(|path| self.is_same(path)) {
            return self.source.fail(at + 1, "an unknown path of std");
        }
        Ok(())
    }

    // Whether a path of std is the same in Rust.
    fn is_same(&self, path: &str) -> bool {
        let is_of_program = self.krate.is_of_program && SAME_OF_PROGRAMS.contains(&path);
        is_of_program || SAME_PATHS.contains(&path)
    }

    fn is_dropped(&self, at: usize) -> bool {
        self.plan.dropped_traits.contains(&self.source.text(at))
    }

    // Drops the names of dropped traits, and with the last name the whole item. One name that is left needs no list.
    fn drop_names(
        &mut self,
        at: usize,
        open: Option<usize>,
        end: usize,
        names: &[usize],
    ) -> Done<()> {
        let kept: Vec<usize> = names.iter().copied().filter(|i| !self.is_dropped(*i)).collect();
        match (kept.as_slice(), open) {
            ([], _) => self.source.drop_item(at, end)?,
            ([one], Some(open)) if names.len() > 1 => {
                self.source.drop_between(open, *one);
                self.source.drop_between(*one + 1, end);
            }
            _ => names.iter().for_each(|i| self.drop_name(*i)),
        }
        Ok(())
    }

    fn drop_name(&mut self, at: usize) {
        if !self.is_dropped(at) {
        } else if self.source.is(at + 1, ",") {
            self.source.drop(at, at + 1);
        } else {
            self.source.drop(at - 1, at);
        }
    }

    /// Where a `Vec` is left, it is imported: only std has it in its prelude.
    pub fn import_lists(&mut self) {
        let is_left = |at: &usize| self.source.left(*at) == Some("Vec");
        if (0..self.source.len()).any(|at| is_left(&at)) {
            self.source.begin_items("use alloc::vec::Vec;");
        }
    }

    /// The first word of a path: a crate is its module, but before an exported macro, which has no module. Members of
    /// numbers, and of std, must be known.
    pub fn path(&mut self, at: usize) -> Done<Option<usize>> {
        let word = self.source.text(at);
        let is_first = at < 2 || !self.source.has(at - 2, ": :");
        if !self.source.has(at + 1, ": :") || !is_first {
            return Ok(None);
        }
        if word == "crate" {
            let new = format!("crate::{}", self.krate.module);
            self.source.replace(at, at, &new);
        } else if let Some(other) = self.plan.crates.iter().find(|it| it.name == word) {
            let is_of_macro = self.is_macro(self.source.text(at + 3));
            let new = format!("crate::{}", other.module);
            self.source.replace(at, at, if is_of_macro { "crate" } else { &new });
        } else if word == "std" && !self.source.has(at, "std : : error : : Error") {
            return self.source.fail(at, "an unknown path of std");
        } else if NUMBERS.contains(&word) && !self.is_member_of_numbers(self.source.text(at + 3)) {
            return self.source.fail(at + 3, "an unknown member of a number");
        }
        Ok(None)
    }

    // Whether a number has this member: it is the same in Rust, or a program declares it in a trait.
    fn is_member_of_numbers(&self, name: &str) -> bool {
        let is_declared = self.krate.is_of_program && self.declared.contains(name);
        is_declared || SAME_OF_NUMBERS.contains(&name)
    }
}
