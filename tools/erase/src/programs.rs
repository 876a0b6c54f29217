//! What programs do and libraries do not: they use the system, allocate texts and lists, and have an entry. What
//! differs there from Rust's std is in the module `host` of the Rust crate, which is written by hand.

use crate::known::HOST_METHODS;
use crate::rules::Eraser;
use crate::source::Done;
use crate::tokens::Kind;

impl Eraser<'_> {
    /// `fn main` of a program: the entry of the Rust crate calls it with the system.
    pub fn entry(&mut self, at: usize) -> Done<Option<usize>> {
        if !self.krate.is_of_program || !self.source.has(at, "fn main (") {
            return Ok(None);
        }
        if !self.source.has(at + 3, "rt : HostRuntime )") {
            return self.source.fail(at, "an entry of an unknown form");
        }
        self.source.replace(at, at, "pub fn");
        Ok(Some(at))
    }

    /// `if a && let p = b { c }` is `if a { if let p = b { c } }`: chains came to Rust in a later edition.
    pub fn chain(&mut self, at: usize) -> Done<Option<usize>> {
        if !self.source.is(at, "if") {
            return Ok(None);
        }
        let Some(open) = self.body_of_condition(at)? else { return Ok(None) };
        let links: Vec<usize> = (at..open).filter(|i| self.source.has(*i, "& & let")).collect();
        let end = self.source.close(open)?;
        if !links.is_empty() && self.source.is(end + 1, "else") {
            return self.source.fail(at, "a chain with an else");
        }
        for link in &links {
            self.source.replace(*link, *link + 1, "{ if");
        }
        if !links.is_empty() {
            self.source.replace(end, end, &"}".repeat(links.len() + 1));
        }
        Ok(None)
    }

    // Where the body behind an `if` opens: the first brace that is in no other bracket, and of no pattern.
    fn body_of_condition(&self, at: usize) -> Done<Option<usize>> {
        let mut i = at + 1;
        while i < self.source.len() {
            match self.source.text(i) {
                "(" | "[" => i = self.source.close(i)?,
                "{" if self.source.is(self.source.close(i)? + 1, "=") => {
                    i = self.source.close(i)?
                }
                "{" => return Ok(Some(i)),
                ";" | "}" | "=>" => return Ok(None),
                _ => {}
            }
            i += 1;
        }
        Ok(None)
    }

    /// A constant of the plan gets its other text.
    pub fn text_of_plan(&mut self, at: usize) -> Done<Option<usize>> {
        let name = self.source.text(at + 1);
        let is_it = |it: &&(&str, &str, &str)| it.0 == self.path && it.1 == name;
        let Some((_, _, new)) = self.plan.texts.iter().find(is_it) else { return Ok(None) };
        if !self.source.has(at, &format!("const {name} : & str =")) {
            return Ok(None);
        }
        if self.source.kind(at + 6) != Kind::Text || !self.source.is(at + 7, ";") {
            return self.source.fail(at, "a constant that is no text");
        }
        self.source.replace(at + 6, at + 6, new);
        Ok(Some(at + 7))
    }

    /// What has the allocator or the system as an argument and is no method: it is the host's.
    pub fn host_call(&mut self, at: usize) -> Done<Option<usize>> {
        if !self.krate.is_of_program {
            return Ok(None);
        }
        for (old, new) in [
            ("Vec : : new (", "crate::host::lists::empty"),
            ("String : : from_str (", "crate::host::texts::copy_of"),
            (
                "io : : Error : : from ( ErrorKind : : FilesystemLoop )",
                "crate::host::io::filesystem_loop()",
            ),
        ] {
            if self.source.has(at, old) {
                let last = at + old.split(' ').count() - 1 - usize::from(old.ends_with('('));
                self.source.replace(at, last, new);
                return Ok(Some(last));
            }
        }
        if self.source.has(at, "eprintln ! ( rt ;") {
            self.source.replace(at, at + 4, "writeln!(rt.stderr(),");
            return Ok(Some(at + 4));
        }
        if self.source.has(at, "format ! ( in") {
            return self.host_text(at).map(Some);
        }
        if self.source.has(at, "vec ! [ in") {
            return self.host_list(at).map(Some);
        }
        Ok(None)
    }

    // `format!(in alloc; ..)`.
    fn host_text(&mut self, at: usize) -> Done<usize> {
        let end = self.source.close(at + 2)?;
        if self.source.kind(at + 4) != Kind::Word || !self.source.is(at + 5, ";") {
            return self.source.fail(at, "a format! of an unknown form");
        }
        let alloc = self.source.text(at + 4);
        let new = format!("crate::host::texts::formatted({alloc}, format_args!(");
        self.source.replace(at, at + 5, &new);
        self.source.replace(end, end, "))");
        Ok(at + 5)
    }

    // `vec![in alloc; item; count]`.
    fn host_list(&mut self, at: usize) -> Done<usize> {
        let end = self.source.close(at + 2)?;
        let is_list = self.source.kind(at + 4) == Kind::Word
            && self.source.is(at + 5, ";")
            && self.source.is(at + 7, ";")
            && self.source.kind(at + 8) == Kind::Word
            && at + 9 == end;
        if !is_list {
            return self.source.fail(at, "a vec! of an unknown form");
        }
        self.source.replace(at, at + 3, "crate::host::lists::filled(");
        self.source.replace(at + 5, at + 5, ",");
        self.source.replace(at + 7, at + 7, ",");
        self.source.replace(end, end, ")");
        Ok(at + 3)
    }

    /// A method that may be refused memory is the host's, under a name that Rust's std does not have.
    pub fn host_method(&mut self, at: usize) -> Done<Option<usize>> {
        let is_call = self.source.is(at, ".") && self.source.is(at + 2, "(");
        let name = self.source.text(at + 1);
        if !self.krate.is_of_program || !is_call || !HOST_METHODS.contains(&name) {
            return Ok(None);
        }
        if self.declared.contains(name) {
            return self.source.fail(at + 1, "a method of std that is declared too");
        }
        self.source.replace(at + 1, at + 1, &format!("try_{name}"));
        Ok(Some(at + 1))
    }

    /// What a program has without a `use`, and the methods of the host.
    pub fn import_host(&mut self) {
        self.source.begin_items("use crate::host::prelude::*;");
    }
}
