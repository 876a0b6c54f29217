//! Calls of std: what allocates is the shim's, since in Rattle the allocator is an argument and out of memory an error.

use crate::known::{is_in, ALLOCATING_METHODS, METHODS_OF_PROGRAMS, SAME_MACROS, SAME_METHODS};
use crate::rules::Eraser;
use crate::source::Done;
use crate::tokens::Kind;

impl Eraser<'_> {
    /// `vec![in alloc; 0; len]`, and `Vec::with_capacity`.
    pub fn vector(&mut self, at: usize) -> Done<Option<usize>> {
        if self.source.has(at, "Vec : :") {
            if !self.source.has(at + 3, "with_capacity (") {
                return self.source.fail(at + 3, "an unknown function of Vec");
            }
            self.source.replace(at, at + 3, "crate::shim::with_capacity");
            return Ok(Some(at + 3));
        }
        if !self.source.has(at, "vec !") {
            return Ok(None);
        }
        let end = self.source.close(at + 2)?;
        let first = self.source.find(at..end, &[";"]).unwrap_or(end);
        if !self.source.has(at + 2, "[ in") || !self.source.has(first, "; 0 ;") {
            return self.source.fail(at, "a vec! that is not one of zeros");
        }
        self.source.replace(at, at + 3, "crate::shim::zeroed_bytes(");
        self.source.replace(first, first + 2, ",");
        self.source.replace(end, end, ")");
        Ok(Some(at + 3))
    }

    /// A method: one that allocates is the shim's, and any other is declared in a source or known to be the same.
    pub fn method(&mut self, at: usize) -> Done<Option<usize>> {
        let is_call = self.source.is(at + 2, "(") || self.source.has(at + 2, ": : <");
        if !self.source.is(at, ".") || self.source.kind(at + 1) != Kind::Word || !is_call {
            return Ok(None);
        }
        match self.source.text(at + 1) {
            "push_reserved" => self.source.replace(at + 1, at + 1, "push"),
            "collect" | "to_vec" => self.list(at)?,
            name if is_in(name, ALLOCATING_METHODS) => {
                return self.source.fail(at + 1, "a method that allocates");
            }
            name if is_in(name, SAME_METHODS) || self.declared.contains(name) => {}
            name if self.krate.is_of_program && is_in(name, METHODS_OF_PROGRAMS) => {}
            _ => return self.source.fail(at + 1, "an unknown method"),
        }
        Ok(None)
    }

    // `name.collect(alloc)` and `name.to_vec(alloc)`. The dot is at `at`.
    fn list(&mut self, at: usize) -> Done<()> {
        let is_of_name = self.source.kind(at - 1) == Kind::Word && !self.source.is(at - 2, ".");
        if !is_of_name || self.source.kind(at + 3) != Kind::Word {
            return self.source.fail(at + 1, "a list that is not made of a name");
        }
        let (name, value) = (self.source.text(at + 1), self.source.text(at - 1));
        self.source.replace(at - 1, at + 2, &format!("crate::shim::{name}({value}, "));
        Ok(())
    }

    /// A macro must be known.
    pub fn macro_call(&mut self, at: usize) -> Done<Option<usize>> {
        let word = self.source.text(at);
        let is_call = self.source.kind(at) == Kind::Word
            && self.source.is(at + 1, "!")
            && matches!(self.source.text(at + 2), "(" | "[" | "{")
            && self.source.touch(at, at + 1);
        if is_call && !SAME_MACROS.contains(&word) && !self.is_macro(word) {
            return self.source.fail(at, "an unknown macro");
        }
        Ok(None)
    }

    /// Whether the sources declare a macro of this name.
    pub fn is_macro(&self, name: &str) -> bool {
        self.declared.contains(&format!("{name}!"))
    }

    /// In Rattle what is written to has a type of its own; in Rust a `Formatter` has a lifetime.
    pub fn writer(&mut self, at: usize) -> Done<Option<usize>> {
        if self.source.has(at, "< W : fmt : : Write >") {
            self.source.drop(at, at + 7);
            return Ok(Some(at + 7));
        }
        if self.source.has(at, "Formatter < W >") {
            self.source.replace(at + 1, at + 3, "<'_>");
            return Ok(Some(at + 3));
        }
        Ok(None)
    }
}
