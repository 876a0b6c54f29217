//! What the whole check with a bound of searches costs of forged tables.

use std::time::Instant;

use crate::check::ENTRY;
use crate::forged::{few_free_slots, one_hash, one_home, up_to, Forged};
use crate::library::{u64_u32, Status};
use crate::ours::DEFAULT_GROUPS;
use crate::table::{Column, Table};

const KEY: usize = 8;

/// How many items so many slots take at 87 percent.
pub fn max_items(slots: usize) -> usize {
    slots * 57_015 / 65_536
}

/// A key of a number of its own with this hash: `FxHashFn` multiplies by an odd number, and the
/// lower half of a product depends on the lower halves of its factors alone.
fn write_key(key: &mut [u8], number: u32, hash: u32) {
    const FACTOR: u32 = 0x2722_0a95;
    // An odd number is its own inverse in three bits, and each step doubles these.
    let inverse = (0..4).fold(FACTOR, |inverse, _| {
        inverse.wrapping_mul(2_u32.wrapping_sub(FACTOR.wrapping_mul(inverse)))
    });
    let key_number = u64::from(number) << 32 | u64::from(hash.wrapping_mul(inverse));
    key.copy_from_slice(&key_number.to_le_bytes());
}

/// The bytes of a table of numbers.
pub fn bytes_of(table: &Forged) -> Vec<u8> {
    table.bytes(KEY, ENTRY - KEY, write_key)
}

const BOUNDS: [usize; 2] = [32, DEFAULT_GROUPS];

type Kind = (&'static str, fn(usize, usize) -> Forged);

/// A table of so many slots, which may depend on the bound.
const KINDS: [Kind; 4] = [
    ("one hash", |slots, _| one_hash(slots)),
    ("one home", |slots, _| one_home(slots)),
    ("few free slots", |slots, _| few_free_slots(slots)),
    ("up to the bound", |slots, groups| {
        up_to(slots, groups.min(slots / 16))
    }),
];

/// Whether the table is within the bound, and the seconds that it took to tell.
fn answer(bytes: &[u8], groups: usize) -> [String; 2] {
    let start = Instant::now();
    let status = u64_u32::check_within(bytes, groups);
    let seconds = start.elapsed().as_secs_f64();
    assert!(matches!(status, Ok(()) | Err(Status::SEARCH_TOO_LONG)));
    let word = if status.is_ok() { "valid" } else { "too long" };
    [word.to_string(), format!("{seconds:.4}")]
}

fn run(slots: usize, (name, forged): Kind, table: &Table) {
    let mut row = vec![slots.to_string(), name.to_string()];
    for groups in BOUNDS {
        row.extend(answer(&bytes_of(&forged(slots, groups)), groups));
    }
    table.print(&row);
}

const SLOTS: [usize; 5] = [1 << 10, 1 << 14, 1 << 18, 1 << 20, 1 << 22];
const QUICK_SLOTS: [usize; 2] = [1 << 10, 1 << 14];

pub fn print_forged_tables(quick: bool, markdown: bool) {
    let rows: &[usize] = if quick { &QUICK_SLOTS } else { &SLOTS };
    println!("\nthe whole check with a bound of searches, of 32 groups and of the default, 128:");
    println!("one run in seconds of forged tables, and whether they are within the bound");
    let columns = vec![
        Column::Number("slots", 9),
        Column::Word("forged", 15),
        Column::Word("32 groups", 9),
        Column::Number("seconds", 9),
        Column::Word("128 groups", 10),
        Column::Number("seconds", 9),
    ];
    let table = Table::begin(columns, markdown);
    for slots in rows {
        for kind in KINDS {
            run(*slots, kind, &table);
        }
    }
}
