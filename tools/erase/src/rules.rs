//! The rules, in their order, and what must not be left.

use crate::known::{is_in, OTHER_WORDS, WORDS_OF_PROGRAMS};
use crate::source::{Done, Source};
use crate::tokens::Kind;
use crate::{Crate, Plan};
use std::collections::BTreeSet;

// Looks at the code from a place on. Where it is the rule's, the rule returns the last place that is done.
type Rule<'e> = fn(&mut Eraser<'e>, usize) -> Done<Option<usize>>;

/// A source that is being erased.
pub struct Eraser<'e> {
    /// Its tokens.
    pub source: Source<'e>,
    /// The plan.
    pub plan: &'e Plan<'e>,
    /// Its crate.
    pub krate: &'e Crate<'e>,
    /// Its file, as the plan names it.
    pub path: &'e str,
    /// The functions of all sources.
    pub declared: &'e BTreeSet<String>,
}

impl<'e> Eraser<'e> {
    const RULES: [Rule<'e>; 24] = [
        Self::ghost,
        Self::clause,
        Self::attribute,
        Self::open_enum,
        Self::export,
        Self::index,
        Self::cut,
        Self::slot_count,
        Self::use_item,
        Self::final_function,
        Self::dropped_block,
        Self::dropped_module,
        Self::drop_bound,
        Self::writer,
        Self::label,
        Self::entry,
        Self::chain,
        Self::text_of_plan,
        Self::host_call,
        Self::host_method,
        Self::vector,
        Self::method,
        Self::macro_call,
        Self::path,
    ];

    /// Applies the rules, from the first token to the last.
    pub fn erase(&mut self) -> Done<()> {
        let mut at = 0;
        while at < self.source.len() {
            at = self.step(at)? + 1;
        }
        Ok(())
    }

    fn step(&mut self, at: usize) -> Done<usize> {
        for rule in Self::RULES {
            if let Some(end) = rule(self, at)? {
                return Ok(end);
            }
        }
        Ok(at)
    }

    /// Whether no token is left that Rust does not know.
    pub fn check(&self) -> Done<()> {
        (0..self.source.len()).try_for_each(|at| self.check_token(at))
    }

    fn check_token(&self, at: usize) -> Done<()> {
        let source = &self.source;
        let Some(text) = source.left(at) else { return Ok(()) };
        if text != source.text(at) {
            return Ok(()); // replaced, by what a rule wrote
        }
        let is_foreign = source.kind(at) != Kind::Text && !text.is_ascii();
        let is_unsafe = match text {
            "unsafe" => !source.has(at.saturating_sub(2), "# [ unsafe ( no_mangle ) ]"),
            "extern" => !source.has(at, "extern \"C\" fn"),
            _ => false,
        };
        let is_of_program = self.krate.is_of_program && is_in(text, WORDS_OF_PROGRAMS);
        if is_foreign || is_unsafe || (is_in(text, OTHER_WORDS) && !is_of_program) {
            return source.fail(at, "left over");
        }
        Ok(())
    }
}
