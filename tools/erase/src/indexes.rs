//! Index expressions that are not checked once more, and slot counts that are compared with the length of the bytes.

use crate::rules::Eraser;
use crate::source::Done;
use crate::tokens::Kind;
use crate::SlotCount;

impl<'e> Eraser<'e> {
    /// `list[index]`, of a name or of a field of a name, in a function that the plan lists, is `index!(list[index],
    /// "clause")`, or `index_mut!` where it is written: the clause says why it is in bounds. The chunk
    /// `list[number * len..number * len + len]` is `chunk!(list, number, len, "clause")`.
    pub fn index(&mut self, at: usize) -> Done<Option<usize>> {
        if !self.is_index(at) {
            return Ok(None);
        }
        let Some(clause) = self.clause_at(at) else { return Ok(None) };
        let end = self.source.close(at)?;
        if let Some(chunk) = self.chunk(at) {
            self.source.replace(at - 1, end, &format!("{chunk}, {clause:?})"));
            return Ok(Some(end));
        }
        let mut base = at - 1;
        while self.source.is(base - 1, ".") && self.source.kind(base - 2) == Kind::Word {
            base -= 2;
        }
        let is_assigned = self.source.is(end + 1, "=") && !self.source.is(end + 2, "=");
        let is_borrowed = base >= 2 && self.source.has(base - 2, "& mut");
        let name = if is_assigned || is_borrowed { "index_mut" } else { "index" };
        let first = format!("{name}!({}", self.source.text(base));
        self.source.replace(base, base, &first);
        self.source.replace(end, end, &format!("], {clause:?})"));
        Ok(Some(at))
    }

    // The macro of a chunk without its clause, if the bracket at a place begins the index of one.
    fn chunk(&self, at: usize) -> Option<String> {
        let (list, number, len) =
            (self.source.text(at - 1), self.source.text(at + 1), self.source.text(at + 3));
        let index = format!("{number} * {len} . . {number} * {len} + {len} ]");
        self.source.has(at + 1, &index).then(|| format!("chunk!({list}, {number}, {len}"))
    }

    /// `list.split_at_mut(index)`, in a function that the plan lists, is `split_at_mut!(list, index, "clause")`.
    pub fn cut(&mut self, at: usize) -> Done<Option<usize>> {
        let is_cut =
            self.source.kind(at) == Kind::Word && self.source.has(at + 1, ". split_at_mut (");
        if !is_cut {
            return Ok(None);
        }
        let Some(clause) = self.clause_at(at) else { return Ok(None) };
        let end = self.source.close(at + 3)?;
        let first = format!("split_at_mut!({},", self.source.text(at));
        self.source.replace(at, at + 3, &first);
        self.source.replace(end, end, &format!(", {clause:?})"));
        Ok(Some(at + 3))
    }

    /// `let slots = ...slot_count();` in a function that the plan lists gets a statement behind it, which compares the
    /// slot count with the length of the bytes.
    pub fn slot_count(&mut self, at: usize) -> Done<Option<usize>> {
        if !self.source.has(at, ". slot_count ( ) ;") {
            return Ok(None);
        }
        let function = self.function_at(at);
        let mut listed = self.plan.slot_counts.iter();
        let Some(reads) = listed.find(|it| it.file == self.path && it.function == function) else {
            return Ok(None);
        };
        let SlotCount { store, layout, .. } = reads;
        let check =
            format!("; crate::shim::slots::check::<{store}>(bytes.len(), slots, {layout});");
        self.source.replace(at + 4, at + 4, &check);
        Ok(Some(at + 4))
    }

    // Why each index of the function that a place is in is in bounds, where the plan lists it.
    fn clause_at(&self, at: usize) -> Option<&'e str> {
        let function = self.function_at(at);
        let mut listed = self.plan.unchecked.iter();
        listed.find(|it| it.file == self.path && it.function == function).map(|it| it.clause)
    }

    // The name of the function that a place is in: of the last one that is declared before it.
    fn function_at(&self, at: usize) -> &str {
        let declared = (0..at).rev().find(|i| self.source.is(*i, "fn"));
        declared.map_or("", |i| self.source.text(i + 1))
    }

    // Whether the bracket at a place stands right behind a name.
    fn is_index(&self, at: usize) -> bool {
        at > 1
            && self.source.is(at, "[")
            && self.source.kind(at - 1) == Kind::Word
            && self.source.touch(at - 1, at)
    }
}
