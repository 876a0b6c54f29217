//! Files: where each goes, and that an error names its file and line.

mod common;

use common::PLAN;
use erase::{erase_all, Counts, Plan, Unchecked};
use std::fs;
use std::path::{Path, PathBuf};

// A new folder with the sources of both crates.
fn room(name: &str, sources: &[(&str, &str)]) -> PathBuf {
    let room = std::env::temp_dir().join(format!("erase-{}-{name}", std::process::id()));
    let _ = fs::remove_dir_all(&room);
    for (path, text) in sources {
        let file = room.join(path);
        fs::create_dir_all(file.parent().unwrap()).unwrap();
        fs::write(file, text).unwrap();
    }
    room
}

// Erases what is in a room, and removes the room.
fn all_of(room: &Path) -> (Result<Counts, String>, Vec<(String, String)>) {
    let plan = Plan { unchecked: &[], ..PLAN };
    let done = erase_all(&plan, room, &room.join("out"));
    let read = |path: &&str| {
        Some((path.to_string(), fs::read_to_string(room.join("out").join(path)).ok()?))
    };
    let paths = [
        "src/all/low.rs",
        "src/all/low/a.rs",
        "src/tables.rs",
        "src/tables/laws.rs",
        "src/tables/a/b.rs",
    ];
    let made = paths.iter().filter_map(read).collect();
    fs::remove_dir_all(room).unwrap();
    (done, made)
}

#[test]
fn each_file_is_the_file_of_its_module() {
    let sources = [
        ("low/src/lib.rt", "mod a;\n"),
        ("low/src/a.rt", "pub fn f() {}\n"),
        ("high/src/lib.rt", "mod laws;\nmod a;\n"),
        ("high/src/laws.rt", "what is here is not looked at: \"\n"),
        ("high/src/a/b.rt", "use low::a;\nfn g() { x.f() }\n"),
    ];
    let (done, made) = all_of(&room("modules", &sources));
    assert_eq!(done, Ok(Counts { files: 4, tokens: 33, dropped: 3, replaced: 1 }));
    let wanted = [
        ("src/all/low.rs", "low/src/lib.rt", "mod a;\n"),
        ("src/all/low/a.rs", "low/src/a.rt", "pub fn f() {}\n"),
        ("src/tables.rs", "high/src/lib.rt", "mod a;\n"),
        ("src/tables/a/b.rs", "high/src/a/b.rt", "use crate::all::low::a;\nfn g() { x.f() }\n"),
    ];
    let wanted = wanted.map(|(path, of, text)| {
        (path.to_string(), format!("// Generated from crates/{of} by make generate.\n{text}"))
    });
    assert_eq!(made, wanted);
}

#[test]
fn a_clause_of_the_plan_stands_in_its_file() {
    let unchecked = Unchecked { file: "high/a", function: "f", clause: "i < n", stated: "low/lib" };
    for (low, wanted) in [
        ("fn f() requires { i < n } {}\n", None),
        ("fn f() requires { i ≤ n } {}\n", Some("low/lib: no clause `i < n`")),
    ] {
        let sources =
            [("low/src/lib.rt", low), ("high/src/lib.rt", "fn f() requires { i < n } {}\n")];
        let room = room("clauses", &sources);
        let plan = Plan { unchecked: &[unchecked], ..PLAN };
        let done = erase_all(&plan, &room, &room.join("out"));
        fs::remove_dir_all(room).unwrap();
        assert_eq!(done.err().as_deref(), wanted);
    }
}

#[test]
fn an_error_names_its_file_and_line() {
    let sources =
        [("low/src/lib.rt", "mod a;\n"), ("high/src/lib.rt", "mod a;\n\nfn f() { x.unknown() }\n")];
    let (done, _) = all_of(&room("errors", &sources));
    assert_eq!(done, Err("crates/high/src/lib.rt: line 3: an unknown method: unknown".into()));
}

#[test]
fn other_files_are_an_error() {
    let sources = [("low/src/lib.rt", "mod a;\n"), ("low/src/a.rs", ""), ("high/src/lib.rt", "")];
    let (done, _) = all_of(&room("others", &sources));
    assert!(done.is_err_and(|what| what.ends_with("low/src/a.rs: no source of Rattle")));
}

#[test]
fn a_crate_that_is_not_there_is_an_error() {
    let (done, _) = all_of(&room("missing", &[("low/src/lib.rt", "mod a;\n")]));
    assert!(done.is_err_and(|what| what.contains("high/src: ")));
}
