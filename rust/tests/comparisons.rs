//! Keys and values of each length from 0 to 70 bytes that are equal, or differ in one bit of one byte. All keys have the
//! same hash, so each search compares bytes.

use crate::common::configs::Plain;
use crate::common::random::Random;
use odht::{HashFn, HashTableOwned};

/// A hash that is the same for all keys.
#[derive(PartialEq, Eq)]
struct Same;

impl HashFn for Same {
    fn hash(_: &[u8]) -> u32 {
        0x1234_5678
    }
}

type Table<const LEN: usize> = HashTableOwned<Plain<LEN, LEN, Same>>;

// A table of one pair.
fn table<const LEN: usize>(key: &[u8; LEN], value: &[u8; LEN]) -> Table<LEN> {
    let mut table = Table::with_capacity(1, 87);
    assert_eq!(table.insert(key, value), None);
    table
}

fn one_bit_decides<const LEN: usize>() {
    let mut random = Random(LEN as u64 + 1);
    let (key, value) = (random.array::<LEN>(), random.array::<LEN>());
    let one = table(&key, &value);
    assert_eq!(one.get(&key), Some(value));
    assert!(one.contains_key(&key));
    assert!(one == table(&key, &value));
    let mut list = [None; 1];
    one.get_all(&[key], &mut list);
    assert_eq!(list, [Some(value)]);
    for (at, bit) in (0..LEN).flat_map(|at| (0..8).map(move |bit| (at, bit))) {
        let (mut other_key, mut other_value) = (key, value);
        other_key[at] ^= 1 << bit;
        other_value[at] ^= 1 << bit;
        assert_eq!(one.get(&other_key), None, "{LEN} bytes, byte {at}");
        assert!(!one.contains_key(&other_key), "{LEN} bytes, byte {at}");
        assert!(one != table(&key, &other_value), "{LEN} bytes, byte {at}");
        one.get_all(&[other_key], &mut list);
        assert_eq!(list, [None], "{LEN} bytes, byte {at}");
    }
}

fn each_bit_decides<const LEN: usize>() {
    let mut random = Random(LEN as u64 + 1);
    let (key, value) = (random.array::<LEN>(), random.array::<LEN>());
    let mut both = table(&key, &value);
    for at in 0..LEN {
        let mut other = key;
        other[at] ^= 0x80;
        assert_eq!(both.insert(&other, &key), None, "{LEN} bytes, byte {at}");
    }
    assert_eq!(both.len(), LEN + 1);
    assert_eq!(both.insert(&key, &key), Some(value));
}

macro_rules! at_lengths {
    ($($length:literal)*) => {
        #[test]
        fn one_byte_decides_at_each_length() {
            $(one_bit_decides::<$length>();)*
        }

        #[test]
        fn keys_that_differ_in_one_byte_have_slots_of_their_own() {
            $(each_bit_decides::<$length>();)*
        }
    };
}

at_lengths! {
    0 1 2 3 4 5 6 7 8 9 10 11 12 13 14 15 16 17 18 19 20 21 22 23 24 25 26 27 28 29 30 31 32 33 34 35 36 37 38 39 40 41
    42 43 44 45 46 47 48 49 50 51 52 53 54 55 56 57 58 59 60 61 62 63 64 65 66 67 68 69 70
}
