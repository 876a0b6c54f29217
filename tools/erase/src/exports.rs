//! Functions that C calls.

use crate::rules::Eraser;
use crate::source::Done;
use crate::tokens::Kind;

impl Eraser<'_> {
    /// `extern "C" fn` is unsafe. Each list comes as a pointer and a length: beyond six words a slice is not two
    /// arguments. The allocator does not come at all.
    pub fn export(&mut self, at: usize) -> Done<Option<usize>> {
        if !self.source.has(at, "extern \"C\" fn") {
            return Ok(None);
        }
        let open = self.source.after_angles(at + 4)?;
        if !self.source.is(open, "(") {
            return self.source.fail(open, "a function that C calls, of an unknown form");
        }
        let end = self.source.close(open)?;
        let mut lets = String::new();
        for i in open + 1..end {
            lets += &self.parameter(i)?;
        }
        if !lets.is_empty() {
            let body = self.body(end + 1)?;
            self.source.replace(body, body, &format!("{{ {lets}"));
        }
        self.source.replace(at, at, "unsafe extern");
        Ok(Some(at + 3))
    }

    // What the function begins with for the parameter that begins at a place, if it is one of these.
    fn parameter(&mut self, at: usize) -> Done<String> {
        if self.source.has(at, "alloc : Global ,") {
            self.source.drop(at, at + 3);
            return Ok("let alloc = Global;".into());
        }
        let mut list = at + 3 + usize::from(self.source.kind(at + 3) == Kind::Label);
        let is_mut = self.source.is(list, "mut");
        list += usize::from(is_mut);
        if !self.source.has(at + 1, ": &") || !self.source.is(list, "[") {
            return Ok(String::new());
        }
        let (name, close) = (self.source.text(at), self.source.close(list)?);
        let item: String = (list + 1..close).map(|i| self.source.text(i)).collect();
        // an array comes as a pointer; a list of arrays is a list
        let inner = if self.source.is(list + 1, "[") { self.source.close(list + 1)? } else { list };
        if (inner + 1..close).any(|i| self.source.is(i, ";")) {
            return Ok(String::new());
        }
        let (pointer, of) = if is_mut { ("mut", "list_mut") } else { ("const", "list") };
        self.source.replace(at, close, &format!("{name}: *{pointer} {item}, {name}_len: usize"));
        Ok(format!("let {name} = unsafe {{ crate::lists::{of}({name}, {name}_len) }};"))
    }

    // Where the body of a function opens, behind its type and its clauses.
    fn body(&self, from: usize) -> Done<usize> {
        let mut at = from;
        while !self.source.is(at, "{") {
            if at >= self.source.len() {
                return self.source.fail(from, "a function without a body");
            }
            at = match self.source.text(at) {
                "requires" | "ensures" => self.clause_end(at)?,
                _ => at + 1,
            };
        }
        Ok(at)
    }

    // The place behind a clause.
    fn clause_end(&self, at: usize) -> Done<usize> {
        match self.source.find(at..self.source.len(), &["{"]) {
            Some(open) => Ok(self.source.close(open)? + 1),
            None => self.source.fail(at, "a clause without braces"),
        }
    }
}
