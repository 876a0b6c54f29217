//! What the whole check costs: of tables that are as full as they may be, beside other ways to go over them, and of
//! forged ones.

use std::time::Instant;

use crate::bounded::{bytes_of, max_items};
use crate::forged::one_hash;
use crate::library::u64_u32;
use crate::measure::{best, times, Job};
use crate::order::pair_in;
use crate::ours;
use crate::table::{Column, Table};
use crate::work::{Work, PERCENT};

pub const HEADER: usize = 32;
pub const ENTRY: usize = 12;
const MIRROR: usize = 16;

fn table_len(slots: usize) -> usize {
    HEADER + slots * ENTRY + slots + MIRROR
}

/// One row: a table of random keys that is as full as it may be.
fn run_full(slots: usize, rounds: usize, table: &Table) {
    let work = &mut Work::new(max_items(slots));
    assert_eq!(work.table.len(), table_len(slots));
    work.spare = vec![0; work.table.len()];
    ours::insert_all(work);
    work.ask_for_keys();
    let jobs: [Job<u64>; 5] = [
        ours::check,
        ours::check_within,
        ours::get_all,
        ours::walk,
        ours::rebuild,
    ];
    let best: Vec<f64> = times(&jobs, rounds, 0, work)
        .iter()
        .map(|times| best(times))
        .collect();
    let [check, within, lookups, walk, rebuild] = [0, 1, 2, 3, 4].map(|job| best[job]);
    let each = |time: f64| time / slots as f64;
    let numbers = [
        each(check),
        each(within),
        within / check,
        work.table.len() as f64 / check,
        each(lookups),
        check / lookups,
        each(walk),
        each(rebuild),
    ];
    let mut row = vec![slots.to_string()];
    row.extend(numbers.map(|number| format!("{number:.2}")));
    table.print(&row);
}

/// A valid table that costs the check most, of those at 87 percent: it is full, and all its keys
/// have one home and one tag.
fn forged_table(slots: usize) -> Vec<u8> {
    bytes_of(&one_hash(slots))
}

/// Inserts make the very bytes.
fn compare_with_inserts(slots: usize) {
    let table = forged_table(slots);
    let mut order = vec![0; max_items(slots)];
    assert_eq!(u64_u32::insert_order(&table, &mut order), Ok(true));
    let pairs = order.iter().map(|slot| pair_in(&table, *slot));
    let (keys, values): (Vec<u64>, Vec<u32>) = pairs.unzip();
    let mut bytes = vec![0; table_len(slots)];
    u64_u32::init(&mut bytes, keys.len(), PERCENT).expect("the length is right");
    u64_u32::insert_all(&mut bytes, &keys, &values);
    assert!(bytes == table);
}

fn run_forged(slots: usize, table: &Table) {
    let bytes = forged_table(slots);
    let items = max_items(slots) as f64;
    let start = Instant::now();
    assert_eq!(u64_u32::check(&bytes), Ok(()));
    let seconds = start.elapsed().as_secs_f64();
    let compare = 1e9 * seconds / (items * (items - 1.0) / 2.0);
    table.print(&[
        slots.to_string(),
        format!("{seconds:.4}"),
        format!("{compare:.3}"),
    ]);
}

/// Each number of slots, with a number of rounds.
const FULL: [(usize, usize); 5] = [
    (1 << 10, 31),
    (1 << 13, 31),
    (1 << 17, 31),
    (1 << 20, 9),
    (1 << 23, 5),
];
const QUICK_FULL: [(usize, usize); 2] = [(1 << 10, 7), (1 << 17, 7)];

pub fn print_full_tables(quick: bool, markdown: bool) {
    let rows: &[(usize, usize)] = if quick { &QUICK_FULL } else { &FULL };
    println!("\nthe whole check of tables that are full at 87 percent: nanoseconds for each slot,");
    println!(
        "the best of several rounds; within: with the default bound of searches, and its time"
    );
    println!("over that of the check; GB/s: of table bytes; ratio: check to lookups of each key");
    let heads = [
        "slots", "check", "within", "to check", "GB/s", "lookups", "ratio", "walk", "rebuild",
    ];
    let columns = heads.map(|head| Column::Number(head, 9));
    let table = Table::begin(columns.into(), markdown);
    for (slots, rounds) in rows {
        run_full(*slots, *rounds, &table);
    }
}

const FORGED: [usize; 4] = [1 << 12, 1 << 14, 1 << 16, 1 << 18];
const QUICK_FORGED: [usize; 2] = [1 << 12, 1 << 14];
/// Takes about an hour.
const WORST: usize = 1 << 20;

pub fn print_forged_tables(quick: bool, worst: bool, markdown: bool) {
    let rows: &[usize] = if quick { &QUICK_FORGED } else { &FORGED };
    println!(
        "\nthe whole check of forged tables, full at 87 percent, whose keys all have one hash:"
    );
    println!("one run in seconds; nanoseconds for each compare of two keys");
    let columns = [("slots", 9), ("seconds", 12), ("compare", 12)];
    let columns = columns.map(|(head, width)| Column::Number(head, width));
    let table = Table::begin(columns.into(), markdown);
    compare_with_inserts(rows[0]);
    for slots in rows {
        run_forged(*slots, &table);
    }
    if worst {
        run_forged(WORST, &table);
    }
}
