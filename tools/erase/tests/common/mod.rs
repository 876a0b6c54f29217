//! What the tests share: a plan of two crates, one of a program over them, and texts without their layout.

use erase::{declared_in, Crate, Erased, Plan, SlotCount, Unchecked};

pub const LOW: Crate<'static> =
    Crate { name: "low", module: "all::low", to: "src/all/low", is_of_program: false };
pub const HIGH: Crate<'static> =
    Crate { name: "high", module: "all::tables", to: "src/tables", is_of_program: false };
#[allow(dead_code)]
pub const TOOL: Crate<'static> =
    Crate { name: "tool", module: "all::tool", to: "cli/tool", is_of_program: true };
pub const PLAN: Plan<'static> = Plan {
    crates: &[LOW, HIGH],
    dropped_traits: &["Model", "Coded", "Lossless"],
    dropped_modules: &["high::laws"],
    unchecked: &[Unchecked {
        file: "high/fast",
        function: "f",
        clause: "i ≤ n",
        stated: "high/fast",
    }],
    slot_counts: &[SlotCount { file: "high/fast", function: "f", store: "M", layout: "l" }],
    open_enums: &[("high/error", "Error")],
    texts: &[],
};
#[allow(dead_code)]
pub const PLAN_WITH_PROGRAM: Plan<'static> = Plan {
    crates: &[LOW, HIGH, TOOL],
    unchecked: &[],
    texts: &[("tool/help", "MADE", "\"erased\"")],
    ..PLAN
};

/// Erases a source of the crate `high`.
pub fn erased(path: &str, source: &str) -> Result<Erased, String> {
    let declared = declared_in(source).into_iter().collect();
    erase::erase(&PLAN, &HIGH, path, &declared, source)
}

/// What is left of a source, with one space between words.
#[allow(dead_code)]
pub fn text(path: &str, source: &str) -> Result<String, String> {
    erased(path, source).map(|erased| without_layout(&erased.text))
}

/// The same of a source of the program.
#[allow(dead_code)]
pub fn text_of_program(path: &str, source: &str) -> Result<String, String> {
    let declared = declared_in(source).into_iter().collect();
    let erased = erase::erase(&PLAN_WITH_PROGRAM, &TOOL, path, &declared, source)?;
    Ok(without_layout(&erased.text))
}

/// Each source, after a first line, is an error on line 2.
#[allow(dead_code)]
pub fn all_are_refused(sources: &[&str], left: impl Fn(&str) -> Result<String, String>) {
    for source in sources {
        match left(&format!("// the first line\n{source}")) {
            Ok(text) => panic!("{source}: not refused, but: {text}"),
            Err(what) => assert!(what.starts_with("line 2: "), "{source}: {what}"),
        }
    }
}

#[allow(dead_code)]
fn without_layout(text: &str) -> String {
    text.split_whitespace().collect::<Vec<_>>().join(" ")
}
