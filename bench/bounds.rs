//! Loops that do only what a job cannot do without, beside the job by this library and by the original: nanoseconds for
//! each item, the best of many rounds. README.md, "What bounds it", is about them.
#![allow(dead_code)]

mod keys;
mod library;
mod loops;
mod maps;
mod measure;
mod original;
mod ours;
mod pages;
#[path = "../bindings/rust/src/sys.rs"]
mod sys;
mod work;

use std::hint::black_box;

use keys::Key;
use loops::{Stored, HEADER};
use measure::{best, times, Job};
use original::Configured;
use ours::Calls;
use work::Work;

/// An opened table of the original whose lookups no other job has.
type View<'a> = odht::HashTable<<u64 as Configured>::Pairs<8>, &'a [u8]>;

/// What is to be looked at in a header, by whole words.
extern "C" fn header(bytes: *const u8, len: usize, count: *mut usize) -> u32 {
    let word = |at: usize| unsafe { u64::from_le(bytes.add(at).cast::<u64>().read_unaligned()) };
    let (slots, is_long) = (
        word(16) as usize,
        len == HEADER + 16 + 13 * word(16) as usize,
    );
    let is_stated =
        word(0) == u64::from_le_bytes(*b"ODHT\x01\x08\x04\x20") && word(24) as u32 == 2 << 24;
    if !(is_stated && slots.is_power_of_two() && slots >= 16 && is_long) {
        return 1;
    }
    unsafe { *count = word(8) as usize };
    0
}

extern "C" fn nothing(_: &View, key: u64, value: &mut u32) -> u32 {
    *value = key as u32;
    0
}

extern "C" fn original_get(table: &View, key: u64, value: &mut u32) -> u32 {
    table.get(&key).map_or(32, |there| {
        *value = there;
        0
    })
}

/// One call for each key, of a function that is not inlined.
fn call_each(work: &mut Work<u64>, call: extern "C" fn(&View, u64, &mut u32) -> u32) {
    let (call, table) = (
        black_box(call),
        View::from_raw_bytes(&work.table[..]).expect("it is valid"),
    );
    work.answers.write_each(&work.queries, |key| {
        let mut value = 0;
        (call(&table, *key, &mut value) == 0).then_some(value)
    });
}

type Header = unsafe extern "C" fn(*const u8, usize, *mut usize) -> u32;

/// One call for each key that looks at header and length, and looks nothing up.
fn look_each(work: &mut Work<u64>, call: Header) {
    let (call, table) = (black_box(call), &work.table);
    work.answers.write_each(&work.queries, |key| {
        let mut count = 0;
        let status = unsafe { call(table.as_ptr(), table.len(), &mut count) };
        (status == 0).then_some(*key as u32)
    });
}

const CALL_NOTHING: Job<u64> = |work| call_each(work, nothing);
const CALL_ORIGINAL: Job<u64> = |work| call_each(work, original_get);
const LOOK: Job<u64> = |work| look_each(work, sys::u64_u32::len);
const LOOK_BY_WORDS: Job<u64> = |work| look_each(work, header);

fn show<K: Key>(work: &mut Work<K>, what: &str, names: &[&str], jobs: &[Job<K>]) {
    let items = work.keys.len();
    let rounds = (20_000_000 / items).clamp(3, 300);
    let best = times(jobs, rounds, 0, work)
        .into_iter()
        .map(|times| best(&times) / items as f64);
    let told = names
        .iter()
        .zip(best)
        .map(|(name, time)| format!("{name} {time:.2}"));
    println!("  {what}: {}", told.collect::<Vec<String>>().join(", "));
}

/// A loop leaves the entries that the job leaves.
fn check<K: Key, const N: usize>(work: &mut Work<K>, own: Job<K>, job: Job<K>) {
    own(work);
    let entries = loops::parts::<N>(&mut work.table).0.to_vec();
    job(work);
    assert!(entries == loops::parts::<N>(&mut work.table).0);
}

fn begin<K: Calls>(items: usize) -> Work<K> {
    drop(black_box(vec![0_u8; 31 << 20])); // from now on malloc keeps what it is given back, as in `run.rs`
    Work::new(items)
}

fn show_tables<K: Stored<N> + Configured, const N: usize>(items: usize) {
    let work = &mut begin::<K>(items);
    original::insert_presized(work);
    work.queries = work.keys.clone();
    loops::look_at_slots(work);
    check::<K, N>(work, loops::store, original::insert_presized);
    check::<K, N>(work, loops::place, original::insert_presized);
    let names = ["new table", "stores", "placing", "odht", "original"];
    let jobs = [
        loops::new_table,
        loops::store,
        loops::place,
        ours::insert_all,
        original::insert_presized,
    ];
    show(work, "presized", &names, &jobs);
    original::insert_presized(work);
    work.ask_for_keys();
    loops::look_at_slots(work);
    show(
        work,
        "hits",
        &["lines", "odht", "original"],
        &[loops::fetch_hits, ours::get_all, original::get],
    );
    work.order.sort_unstable();
    show(
        work,
        "walk",
        &["copy", "odht", "original"],
        &[loops::copy_pairs, ours::walk, original::walk],
    );
    work.ask_for_absent_keys();
    show(
        work,
        "misses",
        &["lines", "odht", "original"],
        &[loops::fetch_misses, ours::get_all, original::get],
    );
    show(
        work,
        "open",
        &["odht", "original"],
        &[ours::open, original::open],
    );
}

fn show_calls(items: usize) {
    let work = &mut begin(items);
    original::insert_presized(work);
    let names = [
        "no lookup",
        "header by words",
        "len",
        "view_get",
        "get",
        "original",
        "original called",
    ];
    let calls = [
        CALL_NOTHING,
        LOOK_BY_WORDS,
        LOOK,
        ours::view_get,
        ours::get,
        original::get,
        CALL_ORIGINAL,
    ];
    work.ask_for_keys();
    show(work, "calls, hits", &names, &calls);
    work.ask_for_absent_keys();
    show(work, "calls, misses", &names, &calls);
}

fn show_growing(items: usize) {
    let work = &mut begin(items);
    loops::list_moves(work);
    check::<u64, 12>(work, loops::store_and_move, original::insert_growing);
    let jobs = [
        loops::store_and_move,
        ours::insert_growing,
        original::insert_growing,
    ];
    show(work, "growing", &["moves", "odht", "original"], &jobs);
}

fn main() {
    let words: Vec<String> = std::env::args().skip(1).collect();
    let items = words[1].parse().expect("how many items");
    println!("{}, {items} items", words[0]);
    match words[0].as_str() {
        "u64" => show_tables::<u64, 12>(items),
        "b16" => show_tables::<[u8; 16], 20>(items),
        "calls" => show_calls(items),
        "growing" => show_growing(items),
        what => panic!("nothing is called {what}"),
    }
}
