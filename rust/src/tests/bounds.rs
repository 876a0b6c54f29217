//! How much the whole check with a bound of searches reads and compares, counted, on tables that are forged to make it
//! much: reads of sixteen control bytes where the shim takes them, compares of keys where an array of bytes does.

use super::forged::{few_free_slots, one_hash, one_home, up_to, Forged};
use crate::generated::base::bytes;
use crate::shim::lanes::loads;
use crate::{
    check_all, check_all_within, ByteArray, Config, Error, HashTable, HashTableOwned, UnHashFn,
};
use std::cell::Cell;

thread_local! {
    static COMPARES: Cell<usize> = const { Cell::new(0) };
}

/// The bytes of a key, which count how often they are compared.
#[derive(Clone, Copy, PartialEq, Eq, Debug)]
struct Counted([u8; 8]);

impl bytes::ByteArray for Counted {
    const LEN: usize = 8;

    fn zeroed() -> Self {
        Counted([0; 8])
    }
    fn from_slice(slice: &[u8]) -> Self {
        Counted(slice.try_into().unwrap())
    }
    fn as_slice(&self) -> &[u8] {
        &self.0
    }
    fn equals(&self, other: &Self) -> bool {
        COMPARES.set(COMPARES.get() + 1);
        self.0 == other.0
    }
}

impl ByteArray for Counted {}

/// A set of such keys, whose last four bytes are their hash.
struct Keys;

impl Config for Keys {
    type Key = [u8; 8];
    type Value = ();
    type EncodedKey = Counted;
    type EncodedValue = [u8; 0];
    type H = UnHashFn;

    fn encode_key(key: &[u8; 8]) -> Counted {
        Counted(*key)
    }
    fn encode_value(_: &()) -> [u8; 0] {
        []
    }
    fn decode_key(key: &Counted) -> [u8; 8] {
        key.0
    }
    fn decode_value(_: &[u8; 0]) {}
}

fn bytes_of(table: &Forged) -> Vec<u8> {
    table.bytes(8, 0, |key, number, hash| {
        key[..4].copy_from_slice(&number.to_le_bytes());
        key[4..].copy_from_slice(&hash.to_le_bytes());
    })
}

/// What a call returns, how many groups it reads, and how many keys it compares.
fn counted<T>(call: impl FnOnce() -> T) -> (T, usize, usize) {
    loads::COUNT.set(0);
    COMPARES.set(0);
    let result = call();
    (result, loads::COUNT.get(), COMPARES.get())
}

type Kind = (&'static str, fn(usize) -> Forged);

const KINDS: [Kind; 3] =
    [("one hash", one_hash), ("one home", one_home), ("few free slots", few_free_slots)];

// 222 keys of one hash fill 13 groups and 14 slots of the next. The search for the key at position p reads p / 16 + 1
// groups: 16 * (1 + .. + 13) + 14 * 14 in all, 1652. It compares p keys: 222 * 221 / 2 in all. Before, each group is read
// once for which slots are free: 16 reads more.
#[test]
fn reads_and_compares_are_counted() {
    let bytes = bytes_of(&one_hash(256));
    assert_eq!(counted(|| check_all::<Keys>(&bytes)), (Ok(()), 1668, 24_531));
    // With each of 128 tags in turn, a key is compared where 128 positions before it there is one: 222 - 128 in all.
    let bytes = bytes_of(&one_home(256));
    assert_eq!(counted(|| check_all::<Keys>(&bytes)), (Ok(()), 1668, 94));
}

#[test]
fn the_tables_are_valid() {
    for (slots, (kind, forged)) in [256, 1024].into_iter().flat_map(|it| KINDS.map(|of| (it, of))) {
        let bytes = bytes_of(&forged(slots));
        assert_eq!(check_all::<Keys>(&bytes), Ok(()), "{kind}, {slots}");
        assert_eq!(check_all_within::<Keys>(&bytes, slots / 16), Ok(()), "{kind}, {slots}");
    }
}

/// Checks the bytes with a bound, and that what it reads and compares is within what is promised:
/// for the bound a read a slot and group; where it is kept again as many, and sixteen times as many
/// compares. A read of each group, for which slots are free, is within that where the bound is
/// kept, since then not all slots have keys that are searched for.
fn within(bytes: &[u8], slots: usize, groups: usize) -> (Result<(), Error>, usize) {
    let view = HashTable::<Keys, _>::from_raw_bytes(bytes).unwrap();
    let (keeps, bound_reads, none) = counted(|| view.searches_within(groups));
    assert!(bound_reads <= slots * groups && none == 0, "{bound_reads}");
    let (result, reads, compares) = counted(|| check_all_within::<Keys>(bytes, groups));
    assert_eq!(result.is_ok(), keeps);
    if keeps {
        assert!(reads <= bound_reads + slots * groups, "{reads}");
        assert!(compares <= 16 * slots * groups, "{compares}");
    } else {
        assert!(
            matches!(result, Err(Error::SearchTooLong { groups: asked, .. }) if asked == groups)
        );
        assert_eq!((reads, compares), (bound_reads + slots / 16, 0));
    }
    (result, compares)
}

#[test]
fn reads_and_compares_are_bounded() {
    for slots in [256, 1024, 4096] {
        for (kind, forged) in KINDS {
            let bytes = bytes_of(&forged(slots));
            for groups in [0, 1, 2, 8, 12] {
                assert!(within(&bytes, slots, groups).0.is_err(), "{kind}, {slots}, {groups}");
            }
            if slots < 4096 {
                assert_eq!(within(&bytes, slots, slots / 16).0, Ok(()), "{kind}, {slots}");
            }
        }
    }
}

// The bound is kept by one group, and more than half of the compares that it allows are made.
#[test]
fn half_of_the_compares_are_reached() {
    for (slots, groups) in [(256, 4), (1024, 8), (1024, 32), (4096, 8)] {
        let bytes = bytes_of(&up_to(slots, groups));
        let (result, compares) = within(&bytes, slots, groups);
        assert_eq!(result, Ok(()), "{slots}, {groups}");
        assert!(compares > 8 * slots * groups, "{slots}, {groups}: {compares}");
        assert!(within(&bytes, slots, groups - 1).0.is_err(), "{slots}, {groups}");
    }
}

// In an empty table each read finds its ninth byte, which serves nine homes.
#[test]
fn a_free_byte_serves_the_homes_before_it() {
    for (items, slots, reads) in [(13, 16, 2), (222, 256, 29), (3563, 4096, 456)] {
        let table = HashTableOwned::<Keys>::with_capacity(items, 87);
        assert_eq!(table.raw_bytes().len(), 32 + slots * 9 + 16);
        let view = HashTable::<Keys, _>::from_raw_bytes(table.raw_bytes()).unwrap();
        for groups in [1, 2, slots / 16] {
            assert_eq!(counted(|| view.searches_within(groups)), (true, reads, 0));
        }
    }
}
