//! A source as its tokens, with what becomes of each.

use crate::tokens::{tokens, Kind, Token};
use crate::{Erased, Replaced};

/// What a rule returns: an error has its line.
pub type Done<T> = Result<T, String>;

/// A source. Its *places* are the indices of its code: of its tokens that are neither space nor comment.
pub struct Source<'s> {
    all: Vec<Token<'s>>,
    code: Vec<usize>,
    out: Vec<Option<String>>,
    replaced: Vec<Replaced>,
}

impl<'s> Source<'s> {
    /// The tokens of a source of a module. In documentation, paths of its crate are those of the module.
    pub fn new(source: &'s str, module: &str) -> Done<Self> {
        let all = tokens(source)?;
        let code = (0..all.len()).filter(|i| all[*i].kind.is_code()).collect();
        let path = format!("crate::{module}::");
        let out = all.iter().map(|token| match token.kind {
            Kind::Doc | Kind::InnerDoc => Some(token.text.replace("crate::", &path)),
            _ => Some(token.text.to_string()),
        });
        Ok(Source { out: out.collect(), all, code, replaced: Vec::new() })
    }

    /// How many places there are.
    pub fn len(&self) -> usize {
        self.code.len()
    }

    /// The text at a place; nothing behind the last one.
    pub fn text(&self, at: usize) -> &'s str {
        self.code.get(at).map_or("", |i| self.all[*i].text)
    }

    /// What the token at a place is.
    pub fn kind(&self, at: usize) -> Kind {
        self.code.get(at).map_or(Kind::Space, |i| self.all[*i].kind)
    }

    /// What is left of a place.
    pub fn left(&self, at: usize) -> Option<&str> {
        self.out[self.code[at]].as_deref()
    }

    /// Whether this is the text at a place.
    pub fn is(&self, at: usize, text: &str) -> bool {
        self.text(at) == text
    }

    /// Whether the code from a place on is these words and marks.
    pub fn has(&self, at: usize, words: &str) -> bool {
        words.split(' ').enumerate().all(|(i, word)| self.is(at + i, word))
    }

    /// Whether no space is between two places.
    pub fn touch(&self, at: usize, next: usize) -> bool {
        self.code[at] + 1 == self.code[next]
    }

    /// The first of some places with one of these texts.
    pub fn find(&self, mut places: std::ops::Range<usize>, texts: &[&str]) -> Option<usize> {
        places.find(|i| texts.contains(&self.text(*i)))
    }

    /// An error at a place.
    pub fn fail<T>(&self, at: usize, what: &str) -> Done<T> {
        let line = self.code.get(at).or(self.code.last()).map_or(0, |i| self.all[*i].line);
        Err(format!("line {line}: {what}: {}", self.text(at)))
    }

    /// The place of the bracket that closes the one at a place.
    pub fn close(&self, at: usize) -> Done<usize> {
        let mut open = Vec::new();
        for i in at..self.len() {
            match self.text(i) {
                "(" => open.push(")"),
                "[" => open.push("]"),
                "{" => open.push("}"),
                text @ (")" | "]" | "}") if open.pop() != Some(text) => {
                    return self.fail(i, "brackets do not match");
                }
                _ => {}
            }
            if open.is_empty() {
                return if i == at { self.fail(at, "no bracket") } else { Ok(i) };
            }
        }
        self.fail(at, "a bracket without an end")
    }

    /// The place behind the angle brackets that open at a place, or the place where none do.
    pub fn after_angles(&self, at: usize) -> Done<usize> {
        let mut depth = 0;
        for i in at..self.len() {
            match self.text(i) {
                "<" => depth += 1,
                ">" if !self.is(i - 1, "-") => depth -= 1,
                _ => {}
            }
            if depth == 0 {
                return Ok(if i == at { at } else { i + 1 });
            }
        }
        self.fail(at, "an angle bracket without an end")
    }

    /// Drops the code from one place to another, with what stands between.
    pub fn drop(&mut self, from: usize, to: usize) {
        self.out[self.code[from]..=self.code[to]].fill(None);
    }

    /// Drops what stands from one place up to another, with the space between, but not the second place.
    pub fn drop_between(&mut self, from: usize, to: usize) {
        self.out[self.code[from]..self.code[to]].fill(None);
    }

    /// `drop`, with the space and the comments before it.
    pub fn drop_clause(&mut self, from: usize, to: usize) {
        let first = if from == 0 { 0 } else { self.code[from - 1] + 1 };
        self.out[first..=self.code[to]].fill(None);
    }

    /// `drop` of an item, with its visibility, its attributes and the comments right above it.
    pub fn drop_item(&mut self, from: usize, to: usize) -> Done<()> {
        let from = self.item_start(from)?;
        self.drop(from, to);
        let mut i = self.code[from];
        while i > 0 && self.is_attached(i - 1) {
            i -= 1;
            if self.all[i].kind != Kind::Space {
                self.out[i] = None;
            }
        }
        Ok(())
    }

    // Whether a token is space or a comment that belongs to the item behind it.
    fn is_attached(&self, token: usize) -> bool {
        match self.all[token].kind {
            Kind::Space => self.all[token].text.matches('\n').count() < 2,
            Kind::Comment | Kind::Doc => true,
            _ => false,
        }
    }

    // Where an item begins, with its visibility and its attributes.
    fn item_start(&self, mut from: usize) -> Done<usize> {
        loop {
            if from >= 4 && self.has(from - 4, "pub ( crate )") {
                from -= 4;
            } else if from >= 1 && self.is(from - 1, "pub") {
                from -= 1;
            } else if let Some(attribute) = self.attribute_before(from)? {
                from = attribute;
            } else {
                return Ok(from);
            }
        }
    }

    // Where the attribute right before a place begins.
    fn attribute_before(&self, from: usize) -> Done<Option<usize>> {
        if from == 0 || !self.is(from - 1, "]") {
            return Ok(None);
        }
        let Some(open) = (0..from).rev().find(|i| self.is(*i, "#")) else { return Ok(None) };
        let is_it = !self.is(open + 1, "!") && self.close(open + 1)? == from - 1;
        Ok(is_it.then_some(open))
    }

    /// Replaces the code from one place to another.
    pub fn replace(&mut self, from: usize, to: usize, new: &str) {
        let tokens = self.code[from]..=self.code[to];
        let old = self.all[tokens].iter().map(|token| token.text).collect();
        self.drop(from, to);
        self.out[self.code[from]] = Some(new.to_string());
        let line = self.all[self.code[from]].line;
        self.replaced.push(Replaced { line, old, new: new.to_string() });
    }

    /// Writes an item before the first one that is left, and before its comments.
    pub fn begin_items(&mut self, item: &str) {
        let Some(first) = (0..self.len()).find(|at| self.left(*at).is_some()) else { return };
        let (mut i, mut start) = (self.code[first], self.code[first]);
        while i > 0 && self.is_attached(i - 1) {
            i -= 1;
            if self.all[i].kind != Kind::Space && self.out[i].is_some() {
                start = i;
            }
        }
        let space = if self.left(first) == Some("use") { "\n" } else { "\n\n" };
        let old = self.out[start].take().unwrap_or_default();
        self.out[start] = Some(format!("{item}{space}{old}"));
    }

    /// The text that is left. Where something was dropped between two spaces, the one with more line ends stays.
    pub fn erased(self) -> Erased {
        let (mut text, mut space) = (String::new(), "");
        for (token, out) in self.all.iter().zip(&self.out) {
            let Some(out) = out else { continue };
            if token.kind != Kind::Space {
                text = text + space + out;
                space = "";
            } else if token.text.matches('\n').count() >= space.matches('\n').count() {
                space = token.text;
            }
        }
        let dropped = self.code.iter().filter(|i| self.out[**i].is_none()).count();
        let text = text.trim().to_string() + "\n";
        Erased { text, replaced: self.replaced, tokens: self.code.len(), dropped }
    }
}
