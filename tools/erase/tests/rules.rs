//! What each rule leaves.

mod common;

use common::{erased, text};
use erase::Replaced;

fn all_leave(pairs: &[(&str, &str)]) {
    for (source, wanted) in pairs {
        assert_eq!(text("high/lib", source).as_deref(), Ok(*wanted), "{source}");
    }
}

#[test]
fn contracts_are_dropped() {
    all_leave(&[
        (
            "fn f(x: u8) -> u8 requires low { 1 ≤ x } ensures* { { \"}\" } } { x }",
            "fn f(x: u8) -> u8 { x }",
        ),
        ("fn f()\n    // of the clause\n    ensures { ⊤ }\n{}", "fn f() {}"),
        ("trait T { fn b() -> u8 ensures { a }; }", "trait T { fn b() -> u8; }"),
        ("ghost use a.{b};\n\n// of c\nfn c() {}", "// of c fn c() {}"),
        ("// of a\nghost use a.{b};\n\nfn c() {}", "fn c() {}"),
        ("ghost use a;\nfn c() {}", "fn c() {}"),
        ("trait T { ghost a: { ℕ }; fn b(); }", "trait T { fn b(); }"),
        ("impl T for S { ghost a = { λ x. { x } }; fn b() {} }", "impl T for S { fn b() {} }"),
        ("struct S { x: u8, ghost y: { x }, }", "struct S { x: u8, }"),
        ("trait T { final fn f() {} }", "trait T { fn f() {} }"),
        ("#![tactic(auto)]\n#[tactic(auto, unfolding(a::b))]\nfn f() {}", "fn f() {}"),
    ]);
}

#[test]
fn traits_and_modules_of_contracts_are_dropped() {
    all_leave(&[
        ("impl<C: A> Model for X<C> { ghost v = { 1 }; } fn f() {}", "fn f() {}"),
        ("impl low::Coded for X { } fn f() {}", "fn f() {}"),
        ("/// Laws.\npub trait Lossless: Config { fn a(); } fn f() {}", "fn f() {}"),
        ("/// Laws.\npub mod laws; mod other;", "mod other;"),
        ("impl<F: Fn(u8) -> u8> Other for F { }", "impl<F: Fn(u8) -> u8> Other for F { }"),
    ]);
}

#[test]
fn drop_is_no_bound() {
    all_leave(&[
        ("trait T: Drop { }", "trait T { }"),
        ("fn f<T: A + Drop, U: Drop + B, V: Drop>() {}", "fn f<T: A, U: B, V>() {}"),
        ("#[derive(Drop)] struct S;", "struct S;"),
        ("#[derive(Drop, Clone)] struct S;", "#[derive( Clone)] struct S;"),
        ("#[derive(Clone, Drop, Copy)] struct S;", "#[derive(Clone, Copy)] struct S;"),
    ]);
}

#[test]
fn an_enum_of_the_plan_is_open() {
    let source = "/// Errors.\n#[derive(Clone)]\npub enum Error { A }";
    let open = "/// Errors. #[derive(Clone)] #[non_exhaustive] pub enum Error { A }";
    assert_eq!(text("high/error", source).as_deref(), Ok(open));
    for (path, source) in [
        ("high/lib", "pub enum Error { A }"),
        ("high/error", "pub enum Part { A }"),
        ("high/error", "enum Error { A }"),
        ("high/error", "pub struct Error;"),
    ] {
        assert_eq!(text(path, source).as_deref(), Ok(source));
    }
}

#[test]
fn labels_that_nothing_names_are_dropped() {
    all_leave(&[
        (
            "fn f() { 'a: loop { 'b: while c { break 'b; } } }",
            "fn f() { loop { 'b: while c { break 'b; } } }",
        ),
        (
            "fn f() { 'a: for x in y { continue 'a; } }",
            "fn f() { 'a: for x in y { continue 'a; } }",
        ),
        ("fn f<'a>(x: &'a u8) {}", "fn f<'a>(x: &'a u8) {}"),
    ]);
}

#[test]
fn paths_of_crates_are_those_of_modules() {
    all_leave(&[
        (
            "use crate::a::{Coded, B}; use low::c;",
            "use crate::all::tables::a::B; use crate::all::low::c;",
        ),
        ("use crate::a::{B, Coded, D};", "use crate::all::tables::a::{B, D};"),
        ("use std::marker::Model; use std::fmt;", "use std::fmt;"),
        ("use std::marker::{Model, PhantomData};", "use std::marker::PhantomData;"),
        ("use std::alloc::Global;", "use crate::shim::Global;"),
        ("use std::simd::prelude::*;", "use crate::shim::u8x16;"),
        ("fn f() { low::g(high::h()) }", "fn f() { crate::all::low::g(crate::all::tables::h()) }"),
        ("fn f() { a::low::g() }", "fn f() { a::low::g() }"),
        ("/// As [`crate::a`].\nfn f() {}", "/// As [`crate::all::tables::a`]. fn f() {}"),
        ("impl std::error::Error for E {}", "impl std::error::Error for E {}"),
        ("fn f() { u64::from_le_bytes(x) }", "fn f() { u64::from_le_bytes(x) }"),
    ]);
}

#[test]
fn what_allocates_is_of_the_shim() {
    all_leave(&[
        (
            "fn f() { vec![in self.a; 0; g(n)]? }",
            "fn f() { crate::shim::zeroed_bytes( self.a, g(n))? }",
        ),
        (
            "fn f() { let v = Vec::with_capacity(a, n)?; v.push_reserved(1); }",
            "fn f() { let v = crate::shim::with_capacity(a, n)?; v.push(1); }",
        ),
        ("fn f() { it.collect(a)? }", "fn f() { crate::shim::collect(it, a)? }"),
        ("fn f() { it.to_vec(a)? }", "fn f() { crate::shim::to_vec(it, a)? }"),
    ]);
}

#[test]
fn a_vec_that_is_left_is_imported() {
    all_leave(&[
        (
            "//! M.\n\nuse low::a;\nfn f(x: &Vec<u8>) {}",
            "//! M. use alloc::vec::Vec; use crate::all::low::a; fn f(x: &Vec<u8>) {}",
        ),
        // before the comments of an item, and behind those of the file
        (
            "//! M.\n/// Bytes.\n#[repr(C)]\nstruct S(Vec<u8>, Vec<u8>);",
            "//! M. use alloc::vec::Vec; /// Bytes. #[repr(C)] struct S(Vec<u8>, Vec<u8>);",
        ),
        // the first item is dropped
        (
            "use low::Coded;\n\nfn f() -> Vec<u8> { g() }",
            "use alloc::vec::Vec; fn f() -> Vec<u8> { g() }",
        ),
        // no `Vec` is left
        ("// Vec\nfn f() { \"Vec\" }", "// Vec fn f() { \"Vec\" }"),
        ("fn f(x: Vec2) {} ghost use a.{Vec};", "fn f(x: Vec2) {}"),
    ]);
}

#[test]
fn a_formatter_has_a_lifetime() {
    all_leave(&[(
        "fn f<W: fmt::Write>(f: &mut fmt::Formatter<W>) {}",
        "fn f(f: &mut fmt::Formatter<'_>) {}",
    )]);
}

#[test]
fn texts_comments_and_operators_stay() {
    all_leave(&[
        (
            "fn f() { \"requires { ghost\" // requires {\n }",
            "fn f() { \"requires { ghost\" // requires { }",
        ),
        ("/* ghost /* x */ */ fn f() { '\"' }", "/* ghost /* x */ */ fn f() { '\"' }"),
        ("fn f() { b\"\\\"\" b'\\'' '\\n' }", "fn f() { b\"\\\"\" b'\\'' '\\n' }"),
        ("fn f() { if !x && y != z { } }", "fn f() { if !x && y != z { } }"),
        ("fn g() {} fn f() { x.g() }", "fn g() {} fn f() { x.g() }"),
    ]);
}

#[test]
fn macros_that_are_declared_are_kept() {
    let source = "macro_rules! m { ($a:expr) => { $a::<low::b, C>() } } fn f() { m!(x) }";
    let wanted =
        "macro_rules! m { ($a:expr) => { $a::<crate::all::low::b, C>() } } fn f() { m!(x) }";
    let exported = "use low::m; use low::n; #[macro_export] macro_rules! m { () => { 1 } }";
    let wanted_of_crate =
        "use crate::m; use crate::all::low::n; #[macro_export] macro_rules! m { () => { 1 } }";
    all_leave(&[(source, wanted), (exported, wanted_of_crate)]);
}

#[test]
fn an_index_in_a_function_of_the_plan_is_a_macro_with_its_clause() {
    for (source, wanted) in [
        ("fn f() { a[i] }", "fn f() { index!(a[i], \"i ≤ n\") }"),
        (
            "fn f() { a.split_at_mut(g(b[i])) }",
            "fn f() { split_at_mut!(a,g(index!(b[i], \"i ≤ n\")), \"i ≤ n\") }",
        ),
        ("fn f() { &self.a[i..j] }", "fn f() { &index!(self.a[i..j], \"i ≤ n\") }"),
        ("fn f() { &a[i * n..i * n + n] }", "fn f() { &chunk!(a, i, n, \"i ≤ n\") }"),
        ("fn f() { &a[i * n..i * n + m] }", "fn f() { &index!(a[i * n..i * n + m], \"i ≤ n\") }"),
        (
            "fn f() { g(&mut a[i..i + b.len()]) }",
            "fn f() { g(&mut index_mut!(a[i..i + b.len()], \"i ≤ n\")) }",
        ),
        (
            "fn f() { a[i] = b[j]; }",
            "fn f() { index_mut!(a[i], \"i ≤ n\") = index!(b[j], \"i ≤ n\"); }",
        ),
        ("fn f() { a[i] == b }", "fn f() { index!(a[i], \"i ≤ n\") == b }"),
        (
            "fn f(x: [u8; 4]) -> [u8; 4] { [x[0]; 4] }",
            "fn f(x: [u8; 4]) -> [u8; 4] { [index!(x[0], \"i ≤ n\"); 4] }",
        ),
    ] {
        assert_eq!(text("high/fast", source).as_deref(), Ok(wanted), "{source}");
        assert_eq!(text("high/slow", source).as_deref(), Ok(source), "{source}");
        let other = source.replacen("fn f", "fn g", 1);
        assert_eq!(text("high/fast", &other), Ok(other), "{source}");
    }
}

#[test]
fn a_slot_count_in_a_function_of_the_plan_is_compared() {
    let source = "fn slot_count() {} fn f() { let slots = h(bytes).slot_count(); g(slots) }";
    let wanted = "fn slot_count() {} fn f() { let slots = h(bytes).slot_count(); \
                  crate::shim::slots::check::<M>(bytes.len(), slots, l); g(slots) }";
    assert_eq!(text("high/fast", source).as_deref(), Ok(wanted));
    for (file, source) in [
        ("high/slow", source),
        ("high/fast", "fn slot_count() {} fn g() { let slots = h(bytes).slot_count(); }"),
        ("high/fast", "fn slot_count() {} fn f() { g(h(bytes).slot_count()) }"),
    ] {
        assert_eq!(text(file, source).as_deref(), Ok(source));
    }
}

#[test]
fn lists_of_exports_are_pointers_and_lengths() {
    all_leave(&[
        (
            "pub extern \"C\" fn f(a: &[u8], b: &mut [u64], n: usize) -> u32 ensures { ⊤ } { g() }",
            "pub unsafe extern \"C\" fn f(a: *const u8, a_len: usize, b: *mut u64, b_len: usize, n: usize) -> u32 \
             { let a = unsafe { crate::lists::list(a, a_len) };\
             let b = unsafe { crate::lists::list_mut(b, b_len) }; g() }",
        ),
        (
            "#[unsafe(no_mangle)] pub extern \"C\" fn f<'a>(v: &mut V<'a>, k: &[u8; 4], x: &'a [u8]) {}",
            "#[unsafe(no_mangle)] pub unsafe extern \"C\" fn f<'a>(v: &mut V<'a>, k: &[u8; 4], x: *const u8, \
             x_len: usize) { let x = unsafe { crate::lists::list(x, x_len) };}",
        ),
        // lists of arrays too, and an array of arrays is none
        (
            "extern \"C\" fn f(k: &[[u8; 4]], v: &mut [[u8; 16]], a: &[[u8; 4]; 2]) {}",
            "unsafe extern \"C\" fn f(k: *const [u8;4], k_len: usize, v: *mut [u8;16], v_len: usize, \
             a: &[[u8; 4]; 2]) { let k = unsafe { crate::lists::list(k, k_len) };\
             let v = unsafe { crate::lists::list_mut(v, v_len) };}",
        ),
        (
            "extern \"C\" fn f(alloc: Global, n: usize) {}",
            "unsafe extern \"C\" fn f( n: usize) { let alloc = Global;}",
        ),
        ("extern \"C\" fn f() -> u32 { 4 }", "unsafe extern \"C\" fn f() -> u32 { 4 }"),
    ]);
}

#[test]
fn what_is_replaced_is_told() {
    let erased = erased("high/lib", "fn f()\nensures { ⊤ }\n{ low::g(); it.to_vec(a) }").unwrap();
    let replaced = |old: &str, new: &str| Replaced { line: 3, old: old.into(), new: new.into() };
    assert_eq!(
        erased.replaced,
        [replaced("low", "crate::all::low"), replaced("it.to_vec(", "crate::shim::to_vec(it, "),]
    );
    // of 23 tokens the clause has four; of `it.to_vec(` one token is written and three are dropped
    assert_eq!((erased.tokens, erased.dropped), (23, 7));
}
