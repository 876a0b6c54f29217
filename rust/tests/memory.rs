//! Out of memory: each request of each call is refused in turn. A `try_` call returns the error that it states and
//! changes nothing; the other calls end as Rust's collections do; and calls that take no memory make no request.

use odht::configs::U64ToU32;
use odht::dynamic::{self, DynError, DynTable, DynTableOwned};
use odht::{
    bytes_needed, check_all, try_bytes_needed, Error, FxHashFn, HashTable, HashTableOwned,
    DEFAULT_GROUPS,
};
use std::alloc::{GlobalAlloc, Layout, System};
use std::cell::Cell;
use std::process::Command;

thread_local! {
    // How many requests are still granted, `usize::MAX` for all, and how many were made. Both are of this thread
    // alone.
    static GRANTED: Cell<usize> = const { Cell::new(usize::MAX) };
    static MADE: Cell<usize> = const { Cell::new(0) };
}

struct Counting;

#[global_allocator]
static ALLOCATOR: Counting = Counting;

fn is_granted() -> bool {
    MADE.set(MADE.get() + 1);
    let granted = GRANTED.get();
    if granted != usize::MAX {
        GRANTED.set(granted.saturating_sub(1));
    }
    granted > 0
}

// SAFETY: it is the system's allocator, but that a request may be refused, which null says.
unsafe impl GlobalAlloc for Counting {
    unsafe fn alloc(&self, layout: Layout) -> *mut u8 {
        if !is_granted() {
            return std::ptr::null_mut();
        }
        // SAFETY: as the caller says.
        unsafe { System.alloc(layout) }
    }

    unsafe fn alloc_zeroed(&self, layout: Layout) -> *mut u8 {
        if !is_granted() {
            return std::ptr::null_mut();
        }
        // SAFETY: as the caller says.
        unsafe { System.alloc_zeroed(layout) }
    }

    unsafe fn realloc(&self, place: *mut u8, layout: Layout, size: usize) -> *mut u8 {
        if !is_granted() {
            return std::ptr::null_mut();
        }
        // SAFETY: as the caller says.
        unsafe { System.realloc(place, layout, size) }
    }

    unsafe fn dealloc(&self, place: *mut u8, layout: Layout) {
        // SAFETY: as the caller says.
        unsafe { System.dealloc(place, layout) }
    }
}

// What a call returns where that many requests are granted, and how many it made.
fn granting<T>(granted: usize, call: impl FnOnce() -> T) -> (T, usize) {
    GRANTED.set(granted);
    MADE.set(0);
    let result = call();
    GRANTED.set(usize::MAX);
    (result, MADE.get())
}

// A call that makes that many requests: refused from each of them on, it returns `Memory`.
fn refused_from_each<T>(requests: usize, call: impl Fn() -> Result<T, Error>) {
    for granted in 0..requests {
        assert_eq!(granting(granted, &call).0.err(), Some(Error::Memory));
    }
    let (result, made) = granting(requests, &call);
    assert_eq!((result.err(), made), (None, requests));
}

type Owned = HashTableOwned<U64ToU32>;

fn pairs_of(count: u64) -> impl Iterator<Item = (u64, u32)> {
    (0..count).map(|key| (key, 7 * key as u32))
}

fn pairs(count: u64) -> Vec<(u64, u32)> {
    pairs_of(count).collect()
}

#[test]
fn new_tables_and_copies() {
    let table = Owned::from_iterator(pairs(30), 87);
    refused_from_each(1, || Owned::try_with_capacity(100, 87));
    refused_from_each(1, || Owned::try_from_raw_bytes(table.raw_bytes()));
    refused_from_each(1, || Owned::from_raw_bytes_within(table.raw_bytes(), DEFAULT_GROUPS));
    refused_from_each(1, || table.try_clone());
    // Room for the items, and the table.
    refused_from_each(2, || Owned::try_from_iterator(pairs_of(30), 87));
}

#[test]
fn rejected_bytes_take_no_memory() {
    let mut bytes = Owned::from_iterator(pairs(30), 87).raw_bytes().to_vec();
    bytes[8] = 31;
    let (result, made) = granting(0, || Owned::try_from_raw_bytes(&bytes));
    assert_eq!(result.err(), Some(Error::WrongItemCount { stated: 31, found: 30 }));
    assert_eq!(made, 0);
    let (result, made) = granting(0, || Owned::try_with_capacity(usize::MAX, 87));
    assert_eq!((result.err(), made), (Some(Error::Capacity), 0));
}

// At the maximum of 13 items.
fn full() -> Owned {
    let table = Owned::from_iterator(pairs(13), 87);
    assert_eq!(table.raw_bytes().len(), 256);
    table
}

#[test]
fn an_insert_that_cannot_grow_changes_nothing() {
    let mut table = full();
    let before = table.raw_bytes().to_vec();
    assert_eq!(granting(0, || table.try_insert(&13, &1)), (Err(Error::Memory), 1));
    assert_eq!(table.raw_bytes(), before);
    assert_eq!(granting(0, || table.try_insert(&12, &1)), (Ok(Some(84)), 0));
    assert_eq!(granting(1, || table.try_insert(&13, &1)), (Ok(None), 1));
    assert_eq!((table.len(), table.get(&13)), (14, Some(1)));
    assert_eq!(granting(0, || table.try_insert(&14, &1)), (Ok(None), 0));
}

// The same by keys that are encoded already.
#[test]
fn an_encoded_insert_that_cannot_grow_changes_nothing() {
    let mut table = full();
    let before = table.raw_bytes().to_vec();
    let [present, new, newer] = [12_u64, 13, 14].map(u64::to_le_bytes);
    assert_eq!(granting(0, || table.try_insert_encoded(&new, &1)), (Err(Error::Memory), 1));
    let made = granting(0, || table.try_get_or_insert_encoded_with(&new, || 1));
    assert_eq!((made, table.raw_bytes()), ((Err(Error::Memory), 1), &before[..]));
    assert_eq!(granting(0, || table.try_insert_encoded(&present, &1)), (Ok(Some(84)), 0));
    assert_eq!(granting(1, || table.try_insert_encoded(&new, &1)), (Ok(None), 1));
    assert_eq!((table.len(), table.get(&13)), (14, Some(1)));
    assert_eq!(granting(0, || table.try_insert_encoded(&newer, &1)), (Ok(None), 0));
}

#[test]
fn a_shrinking_that_is_refused_changes_nothing() {
    let mut table = full();
    table.reserve(1000);
    let before = table.raw_bytes().to_vec();
    assert_eq!(granting(0, || table.try_shrink_to_fit()), (Err(Error::Memory), 1));
    assert_eq!(table.raw_bytes(), before);
    assert_eq!(granting(1, || table.try_shrink_to_fit()), (Ok(()), 1));
    assert_eq!((table.len(), table.raw_bytes().len()), (13, 256));
    assert_eq!(granting(0, || table.try_shrink_to_fit()), (Ok(()), 0));
}

// Of lengths that are known only at run time: the growth, a present key, and a copy.
#[test]
fn an_insert_of_run_time_lengths_that_cannot_grow_changes_nothing() {
    let memory = || Some(DynError::Rejected(Error::Memory));
    let layout = dynamic::Layout { key_len: 3, value_len: 1 };
    let new = || DynTableOwned::<FxHashFn>::with_capacity(layout, 13, 87);
    assert_eq!((granting(0, new).0.err(), granting(1, new).1), (memory(), 1));
    let mut table = new().unwrap();
    for key in 0..13 {
        assert_eq!(granting(0, || table.insert(&[key; 3], &[key])), (Ok(None), 0));
    }
    let before = table.raw_bytes().to_vec();
    let (result, made) = granting(0, || table.insert(&[13; 3], &[1]));
    assert_eq!((result.err(), made), (memory(), 1));
    assert_eq!(table.raw_bytes(), before);
    let (former, made) = granting(0, || table.insert(&[12; 3], &[1]));
    assert_eq!((former.unwrap().as_deref(), made), (Some(&[12][..]), 0));
    assert_eq!(granting(1, || table.insert(&[13; 3], &[1])), (Ok(None), 1));
    assert_eq!((table.len(), table.get(&[13; 3])), (14, Some(&[1][..])));
    let copy = || DynTableOwned::<FxHashFn>::from_raw_bytes(layout, table.raw_bytes());
    assert_eq!((granting(0, copy).0.err(), granting(1, copy).1), (memory(), 1));
}

// A list from 0 to 120 items goes through the maxima 13, 27, 55 and 111.
#[test]
fn a_list_is_inserted_up_to_the_growth_that_fails() {
    let all = pairs(120);
    for (granted, accepted) in [13, 27, 55, 111].into_iter().enumerate() {
        let mut table = Owned::default();
        let (result, made) = granting(granted, || table.try_insert_all(&all));
        assert_eq!((result, made), ((accepted, Err(Error::Memory)), granted + 1));
        let mut expected = Owned::default();
        expected.insert_all(&all[..accepted]);
        assert_eq!(table.raw_bytes(), expected.raw_bytes());
        assert_eq!(table.try_insert_all(&all[accepted..]), (120 - accepted, Ok(())));
        expected.insert_all(&all[accepted..]);
        assert_eq!(table.raw_bytes(), expected.raw_bytes());
    }
    let mut table = Owned::default();
    assert_eq!(granting(4, || table.try_insert_all(&all)), ((120, Ok(())), 4));
}

// Of 13 items a reserve of 14 makes 32 slots, and asks for these alone.
#[test]
fn room_that_is_refused_changes_nothing() {
    let mut table = full();
    let before = table.raw_bytes().to_vec();
    assert_eq!(granting(0, || table.try_reserve(14)), (Err(Error::Memory), 1));
    assert_eq!(table.raw_bytes(), before);
    assert_eq!(granting(0, || table.try_reserve(usize::MAX)), (Err(Error::Capacity), 0));
    assert_eq!(granting(0, || table.try_reserve(0)), (Ok(()), 0));
    assert_eq!(table.raw_bytes(), before);
    assert_eq!(granting(1, || table.try_reserve(14)), (Ok(()), 1));
    assert_eq!((table.len(), table.raw_bytes().len()), (13, 464));
    assert_eq!(granting(0, || table.try_reserve(14)), (Ok(()), 0));
}

// The same of lengths that are known only at run time.
#[test]
fn room_of_run_time_lengths_that_is_refused_changes_nothing() {
    let layout = dynamic::Layout { key_len: 3, value_len: 1 };
    let mut table = DynTableOwned::<FxHashFn>::with_capacity(layout, 13, 87).unwrap();
    for key in 0..13 {
        table.insert(&[key; 3], &[key]).unwrap();
    }
    let before = table.raw_bytes().to_vec();
    let refused = |error| Err(DynError::Rejected(error));
    assert_eq!(granting(0, || table.reserve(14)), (refused(Error::Memory), 1));
    assert_eq!(granting(0, || table.reserve(usize::MAX)), (refused(Error::Capacity), 0));
    assert_eq!(granting(0, || table.reserve(0)), (Ok(()), 0));
    assert_eq!(table.raw_bytes(), before);
    assert_eq!(granting(1, || table.reserve(14)), (Ok(()), 1));
    assert_eq!((table.len(), table.raw_bytes().len()), (13, 32 + 32 * 4 + 32 + 16));
}

// An iterator of known length asks for one list, and 14 new items for one growth.
#[test]
fn items_of_an_iterator_are_inserted_or_not() {
    let new = || (13..27).map(|key| (key, 1));
    let mut table = full();
    let before = table.raw_bytes().to_vec();
    assert_eq!(granting(0, || table.try_extend(new())).0, (0, Err(Error::Memory)));
    assert_eq!(table.raw_bytes(), before);
    assert_eq!(granting(1, || table.try_extend(new())), ((0, Err(Error::Memory)), 2));
    assert_eq!(table.raw_bytes(), before);
    assert_eq!(granting(2, || table.try_extend(new())), ((14, Ok(())), 2));
    assert_eq!((table.len(), table.get(&26)), (27, Some(1)));
    let mut table = full();
    assert_eq!(granting(0, || table.try_get_or_insert_with(&12, || 1)), (Ok(84), 0));
    assert_eq!(granting(0, || table.try_get_or_insert_with(&13, || 1)), (Err(Error::Memory), 1));
    assert_eq!(table.raw_bytes(), before);
    assert_eq!(granting(1, || table.try_get_or_insert_with(&13, || 1)), (Ok(1), 1));
}

#[test]
fn the_other_calls_take_no_memory() {
    let (table, mut order, mut values) = (full(), [0; 13], [None; 3]);
    let last = table.iter().last().unwrap().1;
    let (given_up, counted, mut emptied) = (full(), full(), full());
    let mut place = vec![0; bytes_needed::<U64ToU32>(20, 87)];
    let mut scratch = vec![0; table.insert_order_scratch()];
    let (_, made) = granting(0, || {
        assert!(table.insert_order(&mut order) && table.contains_key(&3));
        assert!(table.insert_order_with(&mut order, &mut scratch));
        let twin = DynTable::<FxHashFn, _>::open_as_stated(table.raw_bytes()).unwrap();
        assert!(twin.insert_order(&mut order) && twin.insert_order_with(&mut order, &mut scratch));
        assert_eq!((table.get(&3), table.get_counted(&99).0), (Some(21), None));
        table.get_all(&[1, 2, 99], &mut values);
        assert_eq!((table.iter().count(), table.iter_from(0).count(), table.len()), (13, 13, 13));
        assert_eq!(
            (table.iter().len(), table.keys().len(), table.values().last()),
            (13, 13, Some(last))
        );
        assert_eq!((table.iter().clone().len(), table.capacity()), (13, 13));
        let view = HashTable::<U64ToU32, _>::try_from_raw_bytes(table.raw_bytes()).unwrap();
        assert!(view.verify() && view.check_all().is_ok() && view.contains_key(&3));
        assert_eq!((view.get(&3), view.get_counted(&99).0), (Some(21), None));
        view.get_all(&[1, 2, 99], &mut values);
        assert_eq!((view.iter().count(), view.iter_from(0).count(), view.len()), (13, 13, 13));
        assert_eq!((view.into_iter().count(), view.keys().count(), view.capacity()), (13, 13, 13));
        let (key, other) = (3_u64.to_le_bytes(), 99_u64.to_le_bytes());
        assert_eq!((view.get_encoded(&key), table.get_encoded(&other)), (Some(21), None));
        assert!(table.contains_encoded(&key) && view == table.as_view());
        assert_eq!((view.into_keys().count(), view.into_values().count()), (13, 13));
        assert_eq!(view.grown_len(), Some(place.len()));
        view.grow_into(&mut place);
        assert_eq!(check_all::<U64ToU32>(&place), Ok(()));
        assert_eq!(try_bytes_needed::<U64ToU32>(20, 87), Ok(place.len()));
        let made = HashTable::<U64ToU32, _>::try_init_in_place(&mut place[..], 20, 87);
        let mut view = made.unwrap();
        assert_eq!(view.try_insert(&1, &2), Ok(None));
        assert_eq!(view.try_insert_all(&[(1, 3), (2, 4)]), (2, Ok(())));
        assert_eq!(counted.into_iter().count(), 13);
        assert!(table == given_up && table.has_same_bytes(&given_up));
        assert!(view.is_same_map(&view) && view.has_same_bytes(&view));
        assert_eq!(given_up.into_raw_bytes().len(), 256);
        emptied.clear();
        emptied.reserve(13);
        emptied.extend(pairs_of(13));
        assert_eq!((emptied.len(), emptied.get_or_insert_with(&3, || 1)), (13, 21));
        let sizes = dynamic::Layout::of::<U64ToU32>();
        let made = DynTable::<FxHashFn, _>::init_in_place(sizes, &mut place[..], 20, 87);
        assert_eq!(made.unwrap().insert(&[1; 8], &[2; 4]), Ok(None));
    });
    assert_eq!((made, values), (0, [Some(7), Some(14), None]));
}

// The plain calls, each in a process of its own, and the bytes of the request that is refused.
const PLAIN: [(&str, usize, fn()); 14] = [
    ("with_capacity", 1712, || drop(granting(0, || Owned::with_capacity(100, 87)))),
    ("default", 256, || drop(granting(0, Owned::default))),
    ("new", 256, || drop(granting(0, Owned::new))),
    ("collect", 880, || drop(granting(1, || pairs_of(30).collect::<Owned>()))),
    ("from", 256, || drop(granting(0, || Owned::from([(1, 2), (3, 4)])))),
    ("from_iterator", 880, || drop(granting(1, || Owned::from_iterator(pairs_of(30), 87)))),
    ("clone", 256, || {
        let table = full();
        drop(granting(0, || table.clone()));
    }),
    ("insert", 464, || {
        let mut table = full();
        granting(0, || table.insert(&13, &1));
    }),
    ("insert_all", 464, || {
        let mut table = full();
        granting(0, || table.insert_all(&[(12, 1), (13, 1)]));
    }),
    ("extend", 464, || {
        let mut table = full();
        granting(0, || table.extend([(12, 1), (13, 1)]));
    }),
    ("get_or_insert_with", 464, || {
        let mut table = full();
        granting(0, || table.get_or_insert_with(&13, || 1));
    }),
    ("insert_encoded", 464, || {
        let mut table = full();
        granting(0, || table.insert_encoded(&[13; 8], &1));
    }),
    ("shrink_to_fit", 256, || {
        let mut table = full();
        table.reserve(1000);
        granting(0, || table.shrink_to_fit());
    }),
    ("reserve", 464, || {
        let mut table = full();
        granting(0, || table.reserve(14));
    }),
];

#[test]
fn the_plain_calls_end_as_collections_do() {
    const NAME: &str = "ODHT_TEST_PLAIN_CALL";
    if let Ok(named) = std::env::var(NAME) {
        let (_, _, call) = PLAIN.iter().find(|(name, _, _)| *name == named).unwrap();
        return call();
    }
    for (name, bytes, _) in PLAIN {
        let mut this = Command::new(std::env::current_exe().unwrap());
        this.args(["--exact", "the_plain_calls_end_as_collections_do", "--nocapture"]);
        let ran = this.env(NAME, name).output().unwrap();
        let printed = String::from_utf8_lossy(&ran.stderr).into_owned();
        assert!(!ran.status.success(), "{name}");
        let words = format!("memory allocation of {bytes} bytes failed");
        assert!(printed.contains(&words), "{name}: {printed}");
    }
}
