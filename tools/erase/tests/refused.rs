//! What no rule knows is an error, with its line.

mod common;

use common::text;

fn all_are_refused(sources: &[&str]) {
    common::all_are_refused(sources, |source| text("high/lib", source));
}

#[test]
fn unknown_items_are_refused() {
    all_are_refused(&[
        "static X: u8 = 1;",
        "fn f() { unsafe { g() } }",
        "unsafe fn f() {}",
        "extern \"C\" { fn f(); }",
        "async fn f() {}",
        "union U { a: u8 }",
        "impl Drop for X { }",
        "impl Model { }",
        "impl Model for X",
    ]);
}

#[test]
fn unknown_ghosts_and_clauses_are_refused() {
    all_are_refused(&[
        "ghost fn f() { }",
        "ghost x: { 1 } fn f() {}",
        "ghost use a.b",
        "fn f() { ghost let x = 1; }",
        "fn f() ensures result ≡ 1 {}",
        "fn f() requires x y { 1 } {}",
        "fn f() ensures { \"} {}",
        "fn f() ensures { ( } {}",
        "fn f() ensures {",
        "fn f() { prove!(x) }",
        "fn f() { x ≡ y }",
        "final const X: u8 = 1;",
    ]);
}

#[test]
fn unknown_paths_are_refused() {
    all_are_refused(&[
        "use std::collections::BTreeMap;",
        "use std::marker::{Model, Send};",
        "use std::alloc::{Global, Layout};",
        "use std::{fmt, mem};",
        "use low::{a, b as c};",
        "use low::{a::{b, c}};",
        "use low::a",
        "fn f() { std::process::exit(1) }",
        "fn f() -> u64 { u64::from_str_radix(s, 3) }",
        "fn f() -> u8 { u8::MIN }",
        "trait Text { fn parse(); } fn f() { u64::parse(x); }",
    ]);
}

#[test]
fn unknown_calls_are_refused() {
    all_are_refused(&[
        "fn f() { let v = Vec::new(alloc); }",
        "fn f() { let v = vec![in alloc; 1; 3]?; }",
        "fn f() { let v = vec![1, 2]; }",
        "fn f() { v.push(1)?; }",
        "fn f() { v.clone() }",
        "fn clone() {} fn f() { v.clone() }",
        "fn f() { v.sort() }",
        "fn f() { a.b.collect(alloc) }",
        "fn f() { g().to_vec(alloc) }",
        "fn f() { v.undeclared() }",
        "fn f() { v.undeclared::<u8>() }",
        "fn f() { println!(\"x\") }",
        "fn f() { format!(\"x\") }",
        "fn f() { panic!() }",
        "fn f() { todo!() }",
    ]);
}

#[test]
fn unknown_attributes_are_refused() {
    all_are_refused(&[
        "#[cfg(feature = \"x\")] fn f() {}",
        "#[cfg(test)] mod tests;",
        "#[should_panic] fn f() {}",
        "#[derive(Clone, Hash)] struct S;",
        "#[derive(Ord)] struct S;",
        "#[inline(",
    ]);
}

#[test]
fn unknown_types_and_texts_are_refused() {
    all_are_refused(&[
        "fn f(s: &str) -> String { s }",
        "fn f(x: &dyn T) {}",
        "fn f() { let x = 1.0_f64 as f64; }",
        "fn f(x: i32) {}",
        "fn f() -> r#type {}",
        "fn f() { r\"raw\" }",
        "fn f() { br#\"raw\"# }",
        "fn f() { /* }",
        "fn f() { \"no end }",
        "fn größe() {}",
    ]);
}
