//! The original's stress test of raw tables: all keys of two bytes in as many slots, so that none
//! is free, and again in twice as many.

use crate::generated::base::hash::FxHashFn;
use crate::generated::header::error::Error;
use crate::generated::raw::raw_table::{Entries, RawTable, RawTableMut};

type Value = fn(u16) -> [u8; 2];

fn insert_all(control: &mut [u8], entries: &mut [u8], value: Value) -> Vec<[u8; 2]> {
    let mut table = RawTableMut::<[u8; 2], [u8; 2], FxHashFn>::new(control, entries);
    let key = |number: u16| number.to_le_bytes();
    let formers = (0..=u16::MAX).map(|number| table.insert(key(number), value(number)).unwrap());
    formers.flatten().collect()
}

fn find_all(control: &[u8], entries: &[u8]) -> Vec<[u8; 2]> {
    let entries = Entries::new(entries, control.len() - 16);
    let table = RawTable::<[u8; 2], [u8; 2], FxHashFn>::new(control, entries);
    (0..=u16::MAX).map(|number| table.find(&number.to_le_bytes()).unwrap()).collect()
}

fn all(value: Value) -> Vec<[u8; 2]> {
    (0..=u16::MAX).map(value).collect()
}

fn stress(slots: usize) {
    let (mut control, mut entries) = (vec![255; slots + 16], vec![0; slots * 4]);
    let first: Value = u16::to_le_bytes;
    let second: Value = |number| [number as u8, (number as u8).wrapping_add(1)];
    assert!(insert_all(&mut control, &mut entries, first).is_empty());
    assert!(find_all(&control, &entries) == all(first));
    assert!(insert_all(&mut control, &mut entries, second) == all(first));
    assert!(find_all(&control, &entries) == all(second));
    assert_eq!(control[..16], control[slots..]);
}

#[test]
fn all_keys_are_found_and_overwritten() {
    stress(1 << 17);
}

#[test]
fn a_table_without_a_free_slot() {
    stress(1 << 16);
}

#[test]
fn a_full_table_refuses_and_ends() {
    let (mut control, mut entries) = (vec![255; 80], vec![0; 64 * 3]);
    let mut table = RawTableMut::<[u8; 2], [u8; 1], FxHashFn>::new(&mut control, &mut entries);
    for number in 0..64 {
        assert_eq!(table.insert([number, 7], [number]), Ok(None));
    }
    assert_eq!(table.insert([64, 7], [0]), Err(Error::Full));
    assert_eq!(table.insert([63, 7], [1]), Ok(Some([63])));
    let table = RawTable::<[u8; 2], [u8; 1], FxHashFn>::new(&control, Entries::new(&entries, 64));
    assert_eq!(table.find_counted(&[64, 7]), (None, 4));
}
