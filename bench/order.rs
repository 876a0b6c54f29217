//! The line of an order of inserts, of tables of numbers by this library alone.

use crate::check::{ENTRY, HEADER};
use crate::library::Status;
use crate::measure::Measure;
use crate::ours::{self, Calls};
use crate::work::{Work, Written};

/// An order of inserts is found of tables of up to so many items.
pub const MOST_ITEMS: usize = 1_000_000;

pub fn measure() -> Measure<u64> {
    Measure::new(Written::Nothing)
        .way("insert order", ours::insert_order)
        .checked(check)
}

/// Inserts of the pairs of these slots, in their order, make the very table.
fn check(work: &Work<u64>) {
    let pairs = work.order.iter().map(|slot| pair_in(&work.table, *slot));
    let (keys, values): (Vec<u64>, Vec<u32>) = pairs.unzip();
    let mut again = vec![0; work.table.len()];
    u64::init(&mut again, keys.len()).expect("the length is right");
    let answer = u64::insert_all(&mut again, &keys, &values);
    assert_eq!(answer, (Status::OK, keys.len()));
    assert!(again == work.table);
}

/// The pair in a slot.
pub fn pair_in(table: &[u8], slot: usize) -> (u64, u32) {
    let entry = &table[HEADER + slot * ENTRY..][..ENTRY];
    let (key, value) = entry.split_at(8);
    let key = key.try_into().expect("a key has eight bytes");
    let value = value.try_into().expect("a value has four");
    (u64::from_le_bytes(key), u32::from_le_bytes(value))
}
