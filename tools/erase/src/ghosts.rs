//! What contracts, laws and proofs alone need: it is dropped.

use crate::rules::Eraser;
use crate::source::Done;
use crate::tokens::Kind;

impl Eraser<'_> {
    /// `ghost use ..;`, and a ghost member or field: `ghost name: { .. };`, `ghost name = { .. },`.
    pub fn ghost(&mut self, at: usize) -> Done<Option<usize>> {
        if !self.source.is(at, "ghost") {
            return Ok(None);
        }
        let end = self.ghost_end(at)?;
        self.source.drop_item(at, end)?;
        Ok(Some(end))
    }

    fn ghost_end(&self, at: usize) -> Done<usize> {
        let source = &self.source;
        let is_member =
            source.kind(at + 1) == Kind::Word && matches!(source.text(at + 2), ":" | "=");
        let open = if source.is(at + 1, "use") {
            source.find(at..source.len(), &[";", "{"])
        } else if is_member && source.is(at + 3, "{") {
            Some(at + 3)
        } else {
            return source.fail(at, "a ghost of an unknown form");
        };
        let end = match open {
            Some(open) if source.is(open, "{") => source.close(open)? + 1,
            Some(end) => end,
            None => return source.fail(at, "a ghost without an end"),
        };
        match source.text(end) {
            ";" | "," => Ok(end),
            _ => source.fail(end, "what comes after a ghost"),
        }
    }

    /// `requires name { .. }`, `ensures { .. }` and `ensures* { .. }`.
    pub fn clause(&mut self, at: usize) -> Done<Option<usize>> {
        if !matches!(self.source.text(at), "requires" | "ensures") {
            return Ok(None);
        }
        let mut open = at + 1;
        open += usize::from(self.source.is(open, "*"));
        open += usize::from(self.source.kind(open) == Kind::Word);
        if !self.source.is(open, "{") {
            return self.source.fail(at, "a clause of an unknown form");
        }
        let end = self.source.close(open)?;
        self.source.drop_clause(at, end);
        Ok(Some(end))
    }

    /// `final` before `fn`: a method of a trait that no implementation may replace.
    pub fn final_function(&mut self, at: usize) -> Done<Option<usize>> {
        if !self.source.has(at, "final fn") {
            return Ok(None);
        }
        self.source.drop(at, at);
        Ok(Some(at))
    }

    /// A trait that says something in contracts alone, and its implementations.
    pub fn dropped_block(&mut self, at: usize) -> Done<Option<usize>> {
        let Some(name) = self.block_name(at)? else { return Ok(None) };
        if !self.plan.dropped_traits.contains(&self.source.text(name)) {
            return Ok(None);
        }
        if self.source.is(at, "impl") && !self.source.is(name + 1, "for") {
            return self.source.fail(name, "a block without `for`");
        }
        let Some(open) = self.source.find(name..self.source.len(), &["{"]) else {
            return self.source.fail(at, "a block without braces");
        };
        let end = self.source.close(open)?;
        self.source.drop_item(at, end)?;
        Ok(Some(end))
    }

    // The place of the name of a trait that is declared or implemented; of a type that has a block.
    fn block_name(&self, at: usize) -> Done<Option<usize>> {
        let source = &self.source;
        let mut name = at + 1;
        match source.text(at) {
            "trait" => return Ok(Some(name)),
            "impl" => name = source.after_angles(name)?,
            _ => return Ok(None),
        }
        while source.has(name + 1, ": :") {
            name += 3;
        }
        Ok(Some(name))
    }

    /// `mod` of a module of laws.
    pub fn dropped_module(&mut self, at: usize) -> Done<Option<usize>> {
        if !self.source.is(at, "mod") || !self.source.is(at + 2, ";") {
            return Ok(None);
        }
        let name = format!("{}::{}", self.krate.name, self.source.text(at + 1));
        if !self.plan.dropped_modules.contains(&name.as_str()) {
            return Ok(None);
        }
        self.source.drop_item(at, at + 2)?;
        Ok(Some(at + 2))
    }

    /// `Drop` as a bound: in Rattle only what has it may be let go.
    pub fn drop_bound(&mut self, at: usize) -> Done<Option<usize>> {
        if !self.source.is(at, "Drop") {
            return Ok(None);
        }
        let before = if at == 0 { "" } else { self.source.text(at - 1) };
        let is_first = before == ":" && self.source.is(at + 1, "+");
        match before {
            "+" => self.source.drop_clause(at - 1, at),
            ":" if is_first => self.source.drop(at, at + 1),
            ":" => self.source.drop(at - 1, at),
            _ => return self.source.fail(at, "an unknown use of Drop"),
        }
        Ok(Some(at + usize::from(is_first)))
    }

    /// A label of a loop that no `break` or `continue` names: proofs name it.
    pub fn label(&mut self, at: usize) -> Done<Option<usize>> {
        let source = &self.source;
        let is_loop = matches!(source.text(at + 2), "loop" | "while" | "for");
        if source.kind(at) != Kind::Label || !source.is(at + 1, ":") || !is_loop {
            return Ok(None);
        }
        let label = source.text(at);
        let is_named = (1..source.len())
            .any(|i| source.is(i, label) && matches!(source.text(i - 1), "break" | "continue"));
        if !is_named {
            self.source.drop(at, at + 1);
        }
        Ok(Some(at + 1))
    }
}
