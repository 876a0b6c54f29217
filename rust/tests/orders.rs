//! The order of inserts that is found, and what is left in the list where there is none, beside the search as it was
//! written first (`common/orders.rs`). The search in linear time, and both in a table whose lengths are numbers, find
//! the same order.

use crate::common::orders::{exchanged, first_order};
use crate::common::random::Random;
use crate::common::reading::{Format, Hash, Reading};
use odht::configs::{DirectU32ToU32, U64ToU32};
use odht::dynamic::DynTable;
use odht::{FxHashFn, HashTableOwned};

type Table = HashTableOwned<U64ToU32>;

const FORMAT: Format = Format::new(8, 4, Hash::Fx);

// Whether there is an order, after both searches did the same.
fn is_made(table: &Table) -> bool {
    let mut found = vec![0; table.len()];
    let mut expected = vec![0; table.len()];
    let is_found = table.insert_order(&mut found);
    assert_eq!(is_found, first_order(&Reading::new(FORMAT, table.raw_bytes()), &mut expected));
    assert_eq!(found, expected);
    same_with_lengths_as_numbers(table, is_found, &found);
    if is_found {
        same_in_linear_time(table, &found);
    } else {
        assert!(!with_scratch(table, &mut expected, table.insert_order_scratch()));
    }
    is_found
}

// The answer with so much scratch, of numbers that mean nothing.
fn with_scratch(table: &Table, out: &mut [usize], numbers: usize) -> bool {
    table.insert_order_with(out, &mut vec![0x5a5a; numbers])
}

// A table of these bytes whose lengths are numbers does the same.
fn same_with_lengths_as_numbers(table: &Table, is_made: bool, expected: &[usize]) {
    let twin = DynTable::<FxHashFn, _>::open_as_stated(table.raw_bytes()).unwrap();
    let mut found = vec![usize::MAX; twin.len()];
    assert_eq!(twin.insert_order(&mut found), is_made);
    assert_eq!(found, expected);
    assert_eq!(twin.insert_order_scratch(), table.insert_order_scratch());
    for numbers in [twin.insert_order_scratch(), 0] {
        let mut order = vec![usize::MAX; twin.len()];
        assert_eq!(twin.insert_order_with(&mut order, &mut vec![0x5a5a; numbers]), is_made);
        assert!(!is_made || order == expected);
    }
}

// With as much scratch as it takes, with more and with less the order is the same.
fn same_in_linear_time(table: &Table, found: &[usize]) {
    let numbers = table.insert_order_scratch();
    for numbers in [numbers, numbers + 3, numbers - 1] {
        let mut order = vec![usize::MAX; found.len()];
        assert!(with_scratch(table, &mut order, numbers));
        assert_eq!(order, found);
    }
}

// As many keys, of as many homes as the shift and the count of first keys leave.
fn table(random: &mut Random, items: usize, firsts: usize, shift: u32) -> Table {
    let firsts: Vec<u64> = (0..firsts).map(|_| random.number()).collect();
    let mut table = Table::with_capacity(items, 100);
    while table.len() < items {
        let first = firsts[random.below(firsts.len())];
        let key = first.wrapping_add(random.number() << shift);
        table.insert(&key, &(table.len() as u32));
    }
    table
}

#[test]
fn random_keys_at_each_load() {
    let mut random = Random(1);
    for items in (0..70).chain([100, 117, 121, 127, 480, 486, 500, 511, 3500, 3891, 4095]) {
        assert!(is_made(&table(&mut random, items, 1, 0)));
    }
}

// Homes of few slots, so that searches are long, fewer and more of them than frontiers that are kept.
#[test]
fn keys_of_few_homes() {
    let mut random = Random(2);
    for (items, shift) in [(14, 2), (16, 4), (64, 3), (120, 6), (250, 2), (512, 4), (1000, 5)] {
        for firsts in [1, 2, 3, 8, 20] {
            assert!(is_made(&table(&mut random, items, firsts, shift.max(4))));
            assert!(is_made(&table(&mut random, items, firsts, shift)));
        }
    }
    for firsts in [60, 64, 70, 200, 400] {
        assert!(is_made(&table(&mut random, 1900, firsts, 12)));
    }
}

// Keys of these homes in turn, in a table of that many slots. The hash of such a key is the key.
fn keys_of(homes: &[u32], slots: u32, items: usize) -> HashTableOwned<DirectU32ToU32> {
    let mut table = HashTableOwned::with_capacity(slots as usize - 1, 100);
    for (number, home) in (0..items as u32).zip(homes.iter().cycle()) {
        table.insert(&(home + number * slots), &number);
    }
    table
}

// One home, two that alternate, neighbours, and multiples of 16 and of 4096.
#[test]
fn homes_that_are_alike() {
    for slots in [16, 256, 4096, 32768] {
        let steps = |step: u32| (0..64).map(|it| it * step % slots).collect::<Vec<_>>();
        let alternating = [3, 3 + slots / 2];
        for homes in [&[5][..], &[slots - 1], &alternating, &[3, 4], &steps(16), &steps(4096)] {
            let table = keys_of(homes, slots, slots as usize / 8 * 7);
            let (mut found, mut order) = (vec![0; table.len()], vec![0; table.len()]);
            assert!(table.insert_order(&mut found));
            let mut scratch = vec![7; table.insert_order_scratch()];
            assert!(table.insert_order_with(&mut order, &mut scratch));
            assert_eq!(order, found);
        }
    }
}

#[test]
fn tables_with_exchanged_slots() {
    let mut random = Random(3);
    let (mut made, mut unmade) = (0, 0);
    for round in 0..5000 {
        let slots = 16 << random.below(if round % 30 == 0 { 6 } else { 3 });
        let items = slots - 1 - if random.comes(50) { 0 } else { random.below(slots / 3) };
        let (firsts, shift) = (1 + random.below(30), random.below(12) as u32);
        let table = table(&mut random, items, firsts, shift);
        for _ in 0..4 {
            let bytes = exchanged(&mut random, &Reading::new(FORMAT, table.raw_bytes()));
            match Table::from_raw_bytes(&bytes).ok().map(|it| is_made(&it)) {
                Some(true) => made += 1,
                Some(false) => unmade += 1,
                None => {}
            }
        }
    }
    assert!(made > 1000 && unmade > 200, "{made} made, {unmade} not");
}
