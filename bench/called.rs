//! The original as a library for C would have it: each call is one of a function that the compiler cannot inline,
//! with a status and an out-parameter. Its caller keeps an opened table, or hands over bytes that each call opens:
//! without a check, or with that of the header, the length and ten slots.

use std::hint::black_box;
use std::slice;

use odht::HashTable;

use crate::original::{Configured, Table};
use crate::work::{Work, PERCENT};

// Each call has a configuration of its own, as each job of `original` has.
const GET_KEPT: usize = 6;
const GET_UNCHECKED: usize = 7;
const GET_CHECKED: usize = 8;
const INSERT_KEPT: usize = 9;
const INSERT_UNCHECKED: usize = 10;
const INSERT_CHECKED: usize = 11;

type View<'a, K, const JOB: usize> = Table<K, JOB, &'a [u8]>;
type ViewMut<'a, K, const JOB: usize> = Table<K, JOB, &'a mut [u8]>;

/// As this library's statuses.
const OK: u32 = 0;
const REJECTED: u32 = 1;
const ABSENT: u32 = 32;
const REPLACED: u32 = 33;

#[inline(always)]
fn look_up<K: Configured, const JOB: usize>(table: &View<K, JOB>, key: &K, value: &mut u32) -> u32 {
    match table.get(key) {
        Some(found) => {
            *value = found;
            OK
        }
        None => ABSENT,
    }
}

#[inline(always)]
fn insert<K: Configured, const JOB: usize>(
    table: &mut ViewMut<K, JOB>,
    key: &K,
    value: u32,
    former: &mut u32,
) -> u32 {
    match table.insert(key, &value) {
        Some(before) => {
            *former = before;
            REPLACED
        }
        None => OK,
    }
}

extern "C" fn get_in<K: Configured>(table: &View<K, GET_KEPT>, key: &K, value: &mut u32) -> u32 {
    look_up(table, key, value)
}

unsafe extern "C" fn get_in_unchecked<K: Configured>(
    bytes: *const u8,
    len: usize,
    key: &K,
    value: &mut u32,
) -> u32 {
    let bytes = unsafe { slice::from_raw_parts(bytes, len) };
    let table = unsafe { View::<K, GET_UNCHECKED>::from_raw_bytes_unchecked(bytes) };
    look_up(&table, key, value)
}

unsafe extern "C" fn get_in_checked<K: Configured>(
    bytes: *const u8,
    len: usize,
    key: &K,
    value: &mut u32,
) -> u32 {
    let bytes = unsafe { slice::from_raw_parts(bytes, len) };
    let Ok(table) = View::<K, GET_CHECKED>::from_raw_bytes(bytes) else {
        return REJECTED;
    };
    look_up(&table, key, value)
}

extern "C" fn insert_in<K: Configured>(
    table: &mut ViewMut<K, INSERT_KEPT>,
    key: &K,
    value: u32,
    former: &mut u32,
) -> u32 {
    insert(table, key, value, former)
}

unsafe extern "C" fn insert_in_unchecked<K: Configured>(
    bytes: *mut u8,
    len: usize,
    key: &K,
    value: u32,
    former: &mut u32,
) -> u32 {
    let bytes = unsafe { slice::from_raw_parts_mut(bytes, len) };
    let mut table = unsafe { ViewMut::<K, INSERT_UNCHECKED>::from_raw_bytes_unchecked(bytes) };
    insert(&mut table, key, value, former)
}

unsafe extern "C" fn insert_in_checked<K: Configured>(
    bytes: *mut u8,
    len: usize,
    key: &K,
    value: u32,
    former: &mut u32,
) -> u32 {
    let bytes = unsafe { slice::from_raw_parts_mut(bytes, len) };
    let Ok(mut table) = ViewMut::<K, INSERT_CHECKED>::from_raw_bytes(bytes) else {
        return REJECTED;
    };
    insert(&mut table, key, value, former)
}

/// A call of a function by its address, which the compiler does not know.
type GetInBytes<K> = unsafe extern "C" fn(*const u8, usize, &K, &mut u32) -> u32;
type InsertInBytes<K> = unsafe extern "C" fn(*mut u8, usize, &K, u32, &mut u32) -> u32;

/// The table is opened once.
pub fn get_kept<K: Configured>(work: &mut Work<K>) {
    let call: extern "C" fn(&View<K, GET_KEPT>, &K, &mut u32) -> u32 = black_box(get_in::<K>);
    let table = HashTable::from_raw_bytes(&work.table[..]).expect("it is valid");
    work.answers.write_each(&work.queries, |key| {
        let mut value = 0;
        (call(&table, key, &mut value) == OK).then_some(value)
    });
}

fn get_each<K: Configured>(work: &mut Work<K>, call: GetInBytes<K>) {
    let (call, table) = (black_box(call), &work.table);
    work.answers.write_each(&work.queries, |key| {
        let mut value = 0;
        let status = unsafe { call(table.as_ptr(), table.len(), key, &mut value) };
        (status == OK).then_some(value)
    });
}

/// Each call opens the bytes without a check.
pub fn get_unchecked<K: Configured>(work: &mut Work<K>) {
    get_each(work, get_in_unchecked::<K>);
}

/// Each call opens the bytes and checks the header, the length and ten slots.
pub fn get_checked<K: Configured>(work: &mut Work<K>) {
    get_each(work, get_in_checked::<K>);
}

/// The table is opened once.
pub fn insert_kept<K: Configured>(work: &mut Work<K>) {
    let call: extern "C" fn(&mut ViewMut<K, INSERT_KEPT>, &K, u32, &mut u32) -> u32 =
        black_box(insert_in::<K>);
    let (bytes, count) = (&mut work.table[..], work.keys.len());
    let mut table = HashTable::init_in_place(bytes, count, PERCENT).expect("the length is right");
    for (key, value) in work.keys.iter().zip(&work.values) {
        let mut former = 0;
        assert_eq!(call(&mut table, key, *value, &mut former), OK);
    }
}

fn insert_each<K: Configured>(work: &mut Work<K>, call: InsertInBytes<K>) {
    let (bytes, count) = (&mut work.table[..], work.keys.len());
    ViewMut::<K, INSERT_KEPT>::init_in_place(bytes, count, PERCENT).expect("the length is right");
    let (call, bytes) = (black_box(call), &mut work.table);
    for (key, value) in work.keys.iter().zip(&work.values) {
        let mut former = 0;
        let status = unsafe { call(bytes.as_mut_ptr(), bytes.len(), key, *value, &mut former) };
        assert_eq!(status, OK);
    }
}

pub fn insert_unchecked<K: Configured>(work: &mut Work<K>) {
    insert_each(work, insert_in_unchecked::<K>);
}

pub fn insert_checked<K: Configured>(work: &mut Work<K>) {
    insert_each(work, insert_in_checked::<K>);
}
