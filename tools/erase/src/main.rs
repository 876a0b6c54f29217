//! `erase CRATES RUST`: makes the sources of the Rust crates in RUST, of the proved crates in CRATES.

use erase::{erase_all, Crate, Plan, SlotCount, Unchecked};
use std::path::Path;
use std::process::ExitCode;

const ARRAYS: &str = "odht_base/bytes/arrays";
const ALLOCATION: &str = "odht_raw/memory_layout/allocation";
const INSERTS: &str = "odht_raw/memory_layout/allocation/writing";
const CUTS: &str = "odht_raw/memory_layout/opening";
const BYTE_INSERTS: &str = "odht_raw/memory_layout/inserts";
const WRITES: &str = "odht_raw/raw_table/writes";
const LAYOUT: &str = "odht_header/layout";
const STORED: &str = "odht_raw/raw_table/stored";
const FIRST_LOOK: &str = "odht_raw/raw_table/first_look";
const STORES: &str = "odht_base/bytes/stores";
const LOOKUPS: &str = "odht/lookups";
const WALK: &str = "odht_raw/raw_table/walk";
// the invariant of a walk names it
const OCCUPIED: &str = "AreOccupied";
const SCAN: &str = "odht_raw/raw_table/scan";
const BY_LENGTHS: &str = "crate::generated::header::layout::Layout { \
    key_len: lengths.key_len() as u8, value_len: lengths.value_len() as u8 }";
const TYPED: &str = "crate::generated::header::layout::Layout::of::<C>()";

const PLAN: Plan<'static> = Plan {
    crates: &[
        library("odht_base", "generated::base", "src/generated/base"),
        library("odht_header", "generated::header", "src/generated/header"),
        library("odht_raw", "generated::raw", "src/generated/raw"),
        library("odht", "generated::tables", "src/generated/tables"),
        library("odht_calls", "generated::calls", "c/src/generated/calls"),
        library("odht_c", "generated::exports", "c/src/generated/exports"),
        program("odht_tool_core", "generated::core", "cli/src/generated/core"),
        program("odht_tool_tables", "generated::tool_tables", "cli/src/generated/tool_tables"),
        program("odht_tool_reads", "generated::reads", "cli/src/generated/reads"),
        program("odht_tool_writes", "generated::writes", "cli/src/generated/writes"),
        program("odht_tool", "generated::tool", "cli/src/generated/tool"),
        program("odht_table", "generated::table", "table/src/generated/table"),
    ],
    dropped_traits: &["Model", "Coded", "Lossless"],
    dropped_modules: &["odht_base::laws", "odht::laws"],
    // What single lookups and inserts do most. Each is in bounds by lengths alone, which no code of a user can change.
    unchecked: &[
        unchecked("read_u16", ARRAYS, "at + 2 ≤ length bytes.now", ARRAYS),
        unchecked("read_u32", ARRAYS, "at + 4 ≤ length bytes.now", ARRAYS),
        unchecked("read_u64", ARRAYS, "at + 8 ≤ length bytes.now", ARRAYS),
        unchecked("is_same_bytes", ARRAYS, "length left.now ≡ length right.now", ARRAYS),
        unchecked("entry", LAYOUT, "≤ length entries.now", LAYOUT),
        unchecked("key", STORED, "slot < self.now.entries.slots", STORED),
        unchecked("value", STORED, "slot < self.now.entries.slots", STORED),
        unchecked("has_key", STORED, "length key.now ≡ self.now.key_len", STORED),
        unchecked("first_look", FIRST_LOOK, "AreWhole H.MIN_LEN", "odht_raw/raw_table/parts"),
        unchecked("group", SCAN, "start < length self.old.control - 16", SCAN),
        unchecked("cut", CUTS, "length bytes.now ≡ image_len F slots", CUTS),
        unchecked("insert_in", BYTE_INSERTS, "slots ≡ header_slots bytes.old", BYTE_INSERTS),
        unchecked("insert_items_in", BYTE_INSERTS, "slots ≡ header_slots bytes.old", BYTE_INSERTS),
        unchecked("write_slot", WRITES, "slot < slots", WRITES),
        unchecked("write_slice", STORES, "at + length piece.now ≤ length all.old", STORES),
        unchecked("put", LOOKUPS, "index < places self.old", LOOKUPS),
        unchecked("first_look_at", LOOKUPS, "index < length keys.now", LOOKUPS),
        unchecked("find_at", LOOKUPS, "index < length keys.now", LOOKUPS),
        unchecked("next", WALK, OCCUPIED, WALK),
    ],
    slot_counts: &[
        SlotCount { file: ALLOCATION, function: "data_slices", store: "M", layout: TYPED },
        SlotCount { file: INSERTS, function: "insert_by", store: "M", layout: TYPED },
        SlotCount { file: INSERTS, function: "insert_items", store: "M", layout: TYPED },
        SlotCount { file: CUTS, function: "parts_in", store: "&[u8]", layout: BY_LENGTHS },
        SlotCount {
            file: BYTE_INSERTS,
            function: "insert_items_dynamic",
            store: "&[u8]",
            layout: "layout",
        },
    ],
    open_enums: &[("odht/dynamic", "DynError"), ("odht_header/error", "Error")],
    texts: &[("odht_tool_core/help", "MADE", "\"erased\"")],
};

const fn library<'p>(name: &'p str, module: &'p str, to: &'p str) -> Crate<'p> {
    Crate { name, module, to, is_of_program: false }
}

const fn program<'p>(name: &'p str, module: &'p str, to: &'p str) -> Crate<'p> {
    Crate { name, module, to, is_of_program: true }
}

const fn unchecked<'p>(
    function: &'p str,
    file: &'p str,
    clause: &'p str,
    stated: &'p str,
) -> Unchecked<'p> {
    Unchecked { file, function, clause, stated }
}

fn main() -> ExitCode {
    let words: Vec<String> = std::env::args().collect();
    let [_, crates, rust] = &words[..] else {
        eprintln!("usage: erase CRATES RUST");
        return ExitCode::from(2);
    };
    match erase_all(&PLAN, Path::new(crates), Path::new(rust)) {
        Ok(counts) => {
            let (files, tokens) = (counts.files, counts.tokens);
            let (dropped, replaced) = (counts.dropped, counts.replaced);
            println!("{files} files, {tokens} tokens, {dropped} dropped, {replaced} replacements");
            ExitCode::SUCCESS
        }
        Err(what) => {
            eprintln!("{what}");
            ExitCode::FAILURE
        }
    }
}
