//! The rules for programs: what each leaves, and what is refused.

mod common;

use common::{text, text_of_program, PLAN_WITH_PROGRAM};
use erase::erase_all;
use std::fs;

const HOST: &str = "use crate::host::prelude::*; ";

fn all_leave(pairs: &[(&str, &str)]) {
    for (source, wanted) in pairs {
        let wanted = format!("{HOST}{wanted}");
        assert_eq!(text_of_program("tool/main", source).as_ref(), Ok(&wanted), "{source}");
    }
}

fn all_are_refused(sources: &[&str]) {
    common::all_are_refused(sources, |source| text_of_program("tool/main", source));
}

#[test]
fn what_has_the_allocator_or_the_system_is_the_hosts() {
    all_leave(&[
        (
            "fn f() { let a = Vec::new(alloc); }",
            "fn f() { let a = crate::host::lists::empty(alloc); }",
        ),
        (
            "fn f() { Vec::with_capacity(alloc, 1)?; }",
            "fn f() { crate::shim::with_capacity(alloc, 1)?; }",
        ),
        (
            "fn f() { vec![in alloc; None; count] }",
            "fn f() { crate::host::lists::filled( alloc, None, count) }",
        ),
        (
            "fn f() { String::from_str(self.alloc, value) }",
            "fn f() { crate::host::texts::copy_of(self.alloc, value) }",
        ),
        (
            "fn f() { format!(in alloc; \"{path}.new\")? }",
            "fn f() { crate::host::texts::formatted(alloc, format_args!( \"{path}.new\"))? }",
        ),
        (
            "fn f() { let _ = eprintln!(rt; \"odht: {error}\"); }",
            "fn f() { let _ = writeln!(rt.stderr(), \"odht: {error}\"); }",
        ),
        (
            "fn f() { Err(io::Error::from(ErrorKind::FilesystemLoop)) }",
            "fn f() { Err(crate::host::io::filesystem_loop()) }",
        ),
    ]);
}

#[test]
fn a_method_that_may_be_refused_memory_has_another_name() {
    all_leave(&[
        ("fn f() { x.push(y)?; }", "fn f() { x.try_push(y)?; }"),
        ("fn f() { x.extend_from_slice(y)?; }", "fn f() { x.try_extend_from_slice(y)?; }"),
        ("fn f() { g(x)?.skip(1).collect(a)?; }", "fn f() { g(x)?.skip(1).try_collect(a)?; }"),
        ("fn f() { x.read_until(b'n', &mut y)?; }", "fn f() { x.try_read_until(b'n', &mut y)?; }"),
        // what is read to the end of a file may be refused memory in Rust too
        ("fn f() { x.read_to_end(&mut y)?; }", "fn f() { x.read_to_end(&mut y)?; }"),
    ]);
}

#[test]
fn a_use_of_the_system_is_one_of_the_host() {
    all_leave(&[
        ("use std::rt::{Clock, Files};", "use crate::host::rt::{Clock, Files};"),
        ("use std::fs::{self, OpenFile};", "use crate::host::fs::{self, OpenFile};"),
        ("use std::io::{self, BufReader};", "use crate::host::io::{self, BufReader};"),
        ("use std::io::{self, BufRead};", "use std::io::{self, BufRead};"),
        ("use std::time::{Duration, Instant};", "use crate::host::time::{Duration, Instant};"),
        (
            "use std::os::unix::fs::OpenOptionsExt;",
            "use crate::host::os::unix::fs::OpenOptionsExt;",
        ),
        ("use std::os::fd::AsFd;", "use std::os::fd::AsFd;"),
        ("use std::{fmt, io};", "use std::{fmt, io};"),
        ("use std::env;", "use crate::host::env;"),
        ("use std::simd::prelude::*;", "use crate::host::simd::prelude::*;"),
        ("use std::alloc::Global;", "use crate::shim::Global;"),
    ]);
}

#[test]
fn a_chain_is_two_conditions() {
    all_leave(&[
        (
            "fn f() { if a && let Some(b) = c(d) { e } }",
            "fn f() { if a { if let Some(b) = c(d) { e }} }",
        ),
        (
            "fn f() { if let A { x, .. } = a && let B(b) = &c && let D = d { e } g }",
            "fn f() { if let A { x, .. } = a { if let B(b) = &c { if let D = d { e }}} g }",
        ),
        ("fn f() { if a && b { c } else { d } }", "fn f() { if a && b { c } else { d } }"),
        (
            "fn f() { if a { if b && let C = c { d } } else { e } }",
            "fn f() { if a { if b { if let C = c { d }} } else { e } }",
        ),
        (
            "fn f() { match a { B(c) if c => d, _ => {} } }",
            "fn f() { match a { B(c) if c => d, _ => {} } }",
        ),
    ]);
}

#[test]
fn the_entry_is_called_from_outside() {
    all_leave(&[(
        "fn main(rt: HostRuntime) -> ExitCode { run(&rt) }",
        "pub fn main(rt: HostRuntime) -> ExitCode { run(&rt) }",
    )]);
}

#[test]
fn words_of_programs_are_kept() {
    all_leave(&[
        ("static A: [u8; 1] = *b\"a\";", "static A: [u8; 1] = *b\"a\";"),
        ("fn f(a: String) { a.as_str(); }", "fn f(a: String) { a.as_str(); }"),
        (
            "#[cold] fn f() { u64::from(x); u8::try_from(y); }",
            "#[cold] fn f() { u64::from(x); u8::try_from(y); }",
        ),
    ]);
}

#[test]
fn a_member_of_a_number_that_is_declared_is_kept() {
    let source = "trait Text { fn parse(); } fn f() { u64::parse(x); }";
    all_leave(&[(source, source)]);
    all_are_refused(&["fn f() { u64::parse(x); }"]);
}

#[test]
fn a_constant_of_the_plan_has_another_text() {
    let source = "const MADE: &str = \"proved\"; const OTHER: &str = \"proved\";";
    let made = "const MADE: &str = \"erased\"; const OTHER: &str = \"proved\";";
    assert_eq!(text_of_program("tool/help", source), Ok(format!("{HOST}{made}")));
    assert_eq!(text_of_program("tool/other", source), Ok(format!("{HOST}{source}")));
    let other = text_of_program("tool/help", "const MADE: &str = concat(A);");
    assert_eq!(other, Err("line 1: a constant that is no text: const".into()));
}

#[test]
fn unknown_forms_of_programs_are_refused() {
    all_are_refused(&[
        "fn main() {}",
        "fn main(rt: Other) {}",
        "fn f() { if a && let B = b { c } else { d } }",
        "fn f() { format!(\"a\") }",
        "fn f() { format!(in self.alloc; \"a\") }",
        "fn f() { vec![1, 2] }",
        "fn f() { vec![in alloc; f(x); n] }",
        "fn f() { vec![in self.alloc; 0; n] }",
        "fn f() { Vec::from(x) }",
        "fn f() { eprintln!(\"a\") }",
        "fn f() { println!(rt; \"a\") }",
        "fn f() { x.unknown() }",
        "fn f() { x.clone() }",
        "fn f() { x.extend(y) }",
        "fn push() { x.push(y) }",
        "fn f() { unknown!(x) }",
        "fn f() { std::fs::read(x) }",
        "use std::fs;",
        "use std::io::{BufReader, LineWriter};",
        "use std::time::{Instant, SystemTime};",
        "use std::net::TcpStream;",
        "fn f(x: Box<u8>) {}",
        "fn f() { unsafe { g() } }",
        "ghost fn f() {}",
    ]);
}

#[test]
fn a_library_has_none_of_this() {
    for source in [
        "fn f() { Vec::new(alloc) }",
        "fn f() { format!(in alloc; \"a\") }",
        "fn f() { x.push(y) }",
        "fn f(x: String) {}",
        "static A: u8 = 1;",
        "use std::io::{self, Write};",
        "use std::rt::Files;",
        "fn f() { x.flush() }",
    ] {
        assert!(text("high/lib", source).is_err(), "{source}");
    }
}

// What a program declares is no method that a library may call, and the root of a program is its entry.
#[test]
fn the_declarations_of_a_program_are_its_own() {
    let room = std::env::temp_dir().join(format!("erase-{}-program", std::process::id()));
    let write = |path: &str, text: &str| {
        let file = room.join(path);
        fs::create_dir_all(file.parent().unwrap()).unwrap();
        fs::write(file, text).unwrap();
    };
    write("low/src/lib.rt", "fn f() { x.h() }\n");
    write("high/src/lib.rt", "fn h() {}\n");
    write("tool/src/main.rt", "fn g() { x.f(); x.g(); m!(x); }\nmacro_rules! m { () => {} }\n");
    let out = room.join("out");
    assert!(erase_all(&PLAN_WITH_PROGRAM, &room, &out).is_ok());
    assert!(out.join("cli/tool.rs").exists());
    write("high/src/lib.rt", "fn h() { x.g() }\n");
    let refused = erase_all(&PLAN_WITH_PROGRAM, &room, &out);
    assert_eq!(refused, Err("crates/high/src/lib.rt: line 1: an unknown method: g".into()));
    write("high/src/lib.rt", "fn h() { m!(x) }\n");
    assert!(erase_all(&PLAN_WITH_PROGRAM, &room, &out).is_err());
    fs::remove_dir_all(&room).unwrap();
}
