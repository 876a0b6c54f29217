//! How long the calls take, on tables of a thousand, a hundred thousand and a million pairs: nanoseconds for a pair,
//! the best of several runs. `cargo bench`, or `cargo bench -- 100000` for dynamic tables.

use odht::configs::U64ToU32;
use odht::{check_all, HashTable, HashTableOwned};
use std::hint::black_box;
use std::time::{Duration, Instant};

type Owned = HashTableOwned<U64ToU32>;

// Nanoseconds for each of so many pairs: the best of the runs that fit into a fifth of a second, or of two.
fn each(pairs: usize, mut job: impl FnMut()) -> f64 {
    let (began, mut best, mut runs) = (Instant::now(), Duration::MAX, 0);
    while runs < 2 || began.elapsed() < Duration::from_millis(200) {
        let from = Instant::now();
        job();
        best = best.min(from.elapsed());
        runs += 1;
    }
    best.as_nanos() as f64 / pairs.max(1) as f64
}

// Keys without an order.
fn key(number: u64) -> u64 {
    let mixed = (number ^ (number >> 30)).wrapping_mul(0xbf58_476d_1ce4_e5b9);
    mixed ^ (mixed >> 27)
}

fn lines(count: usize) -> Vec<(&'static str, f64)> {
    let items: Vec<(u64, u32)> = (0..count as u64).map(|n| (key(n), n as u32)).collect();
    let keys: Vec<u64> = items.iter().map(|(key, _)| *key).collect();
    let absent: Vec<u64> = (0..count as u64).map(|n| key(n + count as u64)).collect();
    let table = Owned::from_iterator(items.iter().copied(), 87);
    let bytes = table.raw_bytes();
    let view = HashTable::<U64ToU32, &[u8]>::try_from_raw_bytes(bytes).expect("a table");
    let mut values = vec![None; count];
    vec![
        (
            "insert",
            each(count, || {
                let mut table = Owned::with_capacity(count, 87);
                items.iter().for_each(|(key, value)| _ = table.insert(key, value));
                black_box(&table);
            }),
        ),
        (
            "insert_all",
            each(count, || {
                let mut table = Owned::with_capacity(count, 87);
                table.insert_all(&items);
                black_box(&table);
            }),
        ),
        ("get, present", each(count, || keys.iter().for_each(|key| _ = black_box(view.get(key))))),
        ("get, absent", each(count, || absent.iter().for_each(|key| _ = black_box(view.get(key))))),
        ("get_all", each(count, || view.get_all(&keys, black_box(&mut values)))),
        (
            "iter",
            each(count, || {
                black_box(view.iter().fold(0, |sum, (key, value)| sum ^ key ^ u64::from(value)));
            }),
        ),
        ("iter().len()", each(count, || _ = black_box(view.iter().len()))),
        ("check_all", each(count, || check_all::<U64ToU32>(black_box(bytes)).expect("a table"))),
    ]
}

fn main() {
    // cargo adds options of its own
    let mut counts: Vec<usize> =
        std::env::args().skip(1).filter_map(|word| word.parse().ok()).collect();
    if counts.is_empty() {
        counts = vec![1_000, 100_000, 1_000_000];
    }
    let columns: Vec<Vec<(&str, f64)>> = counts.iter().map(|count| lines(*count)).collect();
    print!("{:<16}", "ns a pair");
    counts.iter().for_each(|count| print!("{count:>12}"));
    println!();
    for (at, (name, _)) in columns[0].iter().enumerate() {
        print!("{name:<16}");
        columns.iter().for_each(|column| print!("{:>12.2}", column[at].1));
        println!();
    }
}
