//! The declarations of src/sys.rs and src/sys/any.rs are compared with those of include/odht.h: every call of every
//! shape, and of dynamic tables, has the same parameters in the same order, as far as their types at the machine
//! level differ.

use std::collections::BTreeMap;
use std::process::Command;

/// What a parameter is to the machine: `*const`, `*mut`, or a number of that many bits.
type Kinds = Vec<String>;

/// What the preprocessor of C makes of the header, whose macros declare the calls; `None` outside of the repository.
fn header() -> Option<String> {
    let path = concat!(env!("CARGO_MANIFEST_DIR"), "/../../include/odht.h");
    std::fs::metadata(path).ok()?;
    let ran = Command::new("cc").args(["-E", "-P", "-x", "c", path]).output().expect("there is no compiler of C");
    assert!(ran.status.success(), "the header is not preprocessed");
    Some(String::from_utf8(ran.stdout).unwrap())
}

fn kind_in_c(parameter: &str) -> String {
    let kind = match parameter.split_whitespace().next().unwrap() {
        "const" => "*const",
        _ if parameter.contains(['*', '[']) => "*mut",
        "size_t" => "usize",
        "uint8_t" => "u8",
        "uint32_t" => "u32",
        "uint64_t" => "u64",
        other => panic!("{other} is no type of a parameter"),
    };
    kind.to_string()
}

/// The symbols that the header declares, without `odht_`: the kinds of the parameters, and at the end of the result.
fn declared_in_c(header: &str) -> BTreeMap<String, Kinds> {
    let mut symbols = BTreeMap::new();
    let mut before = "";
    for piece in header.split("odht_symbol_") {
        let (name, behind) = piece.split_once('(').unwrap();
        let (parameters, behind) = behind.split_once(')').unwrap();
        // Otherwise it is a call, in the body of a function.
        if behind.trim_start().starts_with("__asm__") {
            let answer = before.split_whitespace().last().unwrap();
            let kinds = parameters.split(',').map(kind_in_c).chain([kind_in_c(answer)]);
            symbols.insert(name.trim_end().to_string(), kinds.collect());
        }
        before = piece;
    }
    symbols
}

fn kind_in_rust(part: &str) -> String {
    let kind = part.split_once(": ").map_or(part, |(_, kind)| kind).trim();
    kind.split_whitespace().next().unwrap().to_string()
}

/// How src/sys.rs passes a key or value that is written `TYPE as KIND` in the list of shapes.
fn passed(written: &str) -> String {
    let (kind, how) = written.split_once(" as ").unwrap();
    if how == "number" {
        kind.to_string()
    } else {
        format!("*const {kind}")
    }
}

/// The calls that are declared in a piece of src/sys.rs, each under the name of its module and its own.
fn calls_in(piece: &str, module: &str) -> BTreeMap<String, Kinds> {
    let calls = piece.split("pub fn ").skip(1).map(|call| {
        let (name, behind) = call.split_once('(').unwrap();
        let (parameters, answer) = behind.split_once(") -> ").unwrap();
        let parts = parameters.split(',').filter(|part| !part.trim().is_empty());
        let kinds = parts.chain([answer.split_once(';').unwrap().0]).map(kind_in_rust).collect();
        (format!("{module}_{name}"), kinds)
    });
    calls.collect()
}

/// The calls of a shape by the template of src/sys.rs.
fn calls_of_shape(template: &str, line: &str) -> BTreeMap<String, Kinds> {
    let (names, behind) = line.trim().split_once(": ").unwrap();
    let module = names.split_once(',').unwrap().0;
    let (key, behind) = behind.split_once(" => ").unwrap();
    let value = behind.split_once(", \"").unwrap().0;
    let value = if value == "()" { String::new() } else { format!("value: {},", passed(value)) };
    let template = template
        .replace("passed!($key_kind $key)", &passed(key))
        .replace("$(value: passed!($value_kind $value),)?", &value);
    calls_in(&template, module)
}

/// The symbols that src/sys/any.rs declares in the same way for dynamic tables, and src/sys.rs for the shapes of
/// src/generated/shapes.rs, and the number of shapes.
fn declared_in_rust() -> (usize, BTreeMap<String, Kinds>) {
    let template = include_str!("../src/sys.rs").split_once("macro_rules! declare").unwrap().1;
    let lines: Vec<&str> =
        include_str!("../src/generated/shapes.rs").lines().filter(|line| line.ends_with("\";")).collect();
    let mut declared = calls_in(include_str!("../src/sys/any.rs"), "any");
    declared.extend(lines.iter().flat_map(|line| calls_of_shape(template, line)));
    (lines.len(), declared)
}

#[test]
fn the_header_declares_the_same() {
    let Some(header) = header() else {
        println!("There is no include/odht.h: this package is not in its repository.");
        return;
    };
    let (shapes, declared) = declared_in_rust();
    assert_eq!(declared.len(), shapes * 24 + 27);
    assert_eq!(declared, declared_in_c(&header));
}
