//! Properties of random lists, beside a map of the standard library and beside a second writing of the bytes.

use crate::common::configs::Plain;
use crate::common::random::Random;
use crate::common::reading::{Format, Hash};
use crate::common::writing::Writing;
use odht::{bytes_needed, FxHashFn, HashFn, HashTable, HashTableOwned, UnHashFn};
use std::collections::HashMap;

type Pairs<const K: usize, const V: usize> = Vec<([u8; K], [u8; V])>;

// The format's name of a hash function.
trait Named: HashFn {
    const HASH: Hash;
}

impl Named for FxHashFn {
    const HASH: Hash = Hash::Fx;
}

impl Named for UnHashFn {
    const HASH: Hash = Hash::Un;
}

// Keys of which many have the same home and tag, and some are met again. Of half the lists with keys of more than 64
// bytes these differ behind 64 bytes alone, or in their last byte alone.
fn pairs<const K: usize, const V: usize>(random: &mut Random, count: usize) -> Pairs<K, V> {
    let homes = random.byte();
    let same = if K > 64 { [0, 64, 0, K - 1][homes as usize % 4] } else { 0 };
    let key = |random: &mut Random| {
        let mut key = random.array::<K>();
        key[..same].fill(homes);
        if let Some(first) = key.first_mut().filter(|_| homes < 128) {
            *first &= 3;
        }
        key
    };
    (0..count).map(|_| (key(random), random.array())).collect()
}

// The bytes of single inserts into a view, of a list into a view, of both into the table that grows, and of the second
// writing are equal where none of them grows.
fn bytes_are_equal<const K: usize, const V: usize, H: Named>(random: &mut Random) {
    let count = random.below(150);
    let percent = 1 + random.below(100) as u8;
    let pairs = pairs::<K, V>(random, count);
    let mut expected = Writing::new(Format::new(K, V, H::HASH), count, percent);
    let place = [random.byte()].repeat(bytes_needed::<Plain<K, V, H>>(count, percent));
    let mut single =
        HashTable::<Plain<K, V, H>, _>::init_in_place(place.clone(), count, percent).unwrap();
    let mut list = HashTable::<Plain<K, V, H>, _>::init_in_place(place, count, percent).unwrap();
    let mut owned = HashTableOwned::<Plain<K, V, H>>::with_capacity(count, percent);
    let mut owned_list = HashTableOwned::<Plain<K, V, H>>::with_capacity(count, percent);
    for (key, value) in &pairs {
        let former = expected.put(key, value).unwrap();
        assert_eq!(single.insert(key, value).map(Vec::from), former);
        assert_eq!(owned.insert(key, value).map(Vec::from), former);
    }
    assert_eq!(list.try_insert_all(&pairs), (count, Ok(())));
    assert_eq!(owned_list.try_insert_all(&pairs), (count, Ok(())));
    let collected = HashTableOwned::<Plain<K, V, H>>::from_iterator(pairs, percent);
    let all = [single.raw_bytes(), list.raw_bytes(), owned.raw_bytes(), owned_list.raw_bytes()];
    assert!(all.into_iter().chain([collected.raw_bytes()]).all(|it| it == expected.bytes));
}

// Tables that grow from the smallest: single inserts, a list, and the second writing, beside a map.
fn growth_is_equal<const K: usize, const V: usize, H: Named>(random: &mut Random) {
    let count = random.below(300);
    let percent = 1 + random.below(100) as u8;
    let pairs = pairs::<K, V>(random, count);
    let mut expected = Writing::new(Format::new(K, V, H::HASH), 0, percent);
    let mut single = HashTableOwned::<Plain<K, V, H>>::with_capacity(0, percent);
    let mut map = HashMap::new();
    for (key, value) in &pairs {
        let former = map.insert(*key, *value);
        assert_eq!(single.insert(key, value), former);
        assert_eq!(expected.insert(key, value), former.map(Vec::from));
    }
    assert_eq!(single.raw_bytes(), expected.bytes);
    let mut list = HashTableOwned::<Plain<K, V, H>>::with_capacity(0, percent);
    list.insert_all(&pairs);
    assert_eq!(list.raw_bytes(), expected.bytes);
    answers_as_a_map(&list, &map, &pairs);
    makes_again(&list, percent);
}

// Lookups, walk and count are those of the map, and those of a view at any address.
fn answers_as_a_map<const K: usize, const V: usize, H: Named>(
    table: &HashTableOwned<Plain<K, V, H>>,
    map: &HashMap<[u8; K], [u8; V]>,
    pairs: &Pairs<K, V>,
) {
    let offset = pairs.len() % 17;
    let mut place = vec![0xa5; offset];
    place.extend(table.raw_bytes());
    let view = HashTable::<Plain<K, V, H>, &[u8]>::from_raw_bytes(&place[offset..]).unwrap();
    assert!(view.verify());
    assert_eq!((table.len(), view.len()), (map.len(), map.len()));
    let other = |key: &[u8; K]| key.map(|byte| byte.wrapping_add(1));
    let keys: Vec<[u8; K]> = pairs.iter().flat_map(|(key, _)| [*key, other(key)]).collect();
    let expected: Vec<Option<[u8; V]>> = keys.iter().map(|key| map.get(key).copied()).collect();
    let mut values = [vec![None; keys.len()], vec![Some([7; V]); keys.len()]];
    table.get_all(&keys, &mut values[0]);
    view.get_all(&keys, &mut values[1]);
    assert!(values.iter().all(|it| *it == expected));
    for (key, value) in keys.iter().zip(expected) {
        assert_eq!((table.get(key), view.get(key)), (value, value));
        assert_eq!(table.contains_key(key), value.is_some());
        assert_eq!(view.contains_key(key), value.is_some());
        assert_eq!((table.get_counted(key).0, view.get_counted(key).0), (value, value));
    }
    let from = pairs.len() % 40;
    let walk: HashMap<[u8; K], [u8; V]> = view.iter().collect();
    assert!(walk == *map && view.iter().count() == map.len());
    assert!(table.iter().eq(view.iter()) && table.iter_from(from).eq(view.iter_from(from)));
    let behind = view.iter_from(0).filter(|(slot, _)| *slot >= from);
    assert!(view.iter_from(from).eq(behind));
}

// The order that is found makes the bytes again, and the grown table is that of the second writing.
fn makes_again<const K: usize, const V: usize, H: Named>(
    table: &HashTableOwned<Plain<K, V, H>>,
    percent: u8,
) {
    let written = Writing { format: Format::new(K, V, H::HASH), bytes: table.raw_bytes().to_vec() };
    let mut order = vec![0; table.len()];
    assert!(table.insert_order(&mut order));
    let maximum = written.reading().maximum();
    let mut again = HashTableOwned::<Plain<K, V, H>>::with_capacity(maximum, percent);
    for slot in order {
        let (key, value) = (written.reading().key(slot), written.reading().value(slot));
        let (key, value) = (key.try_into().unwrap(), value.try_into().unwrap());
        assert_eq!(again.insert(&key, &value), None);
    }
    assert_eq!(again.raw_bytes(), table.raw_bytes());
    let view = HashTable::<Plain<K, V, H>, &[u8]>::from_raw_bytes(table.raw_bytes()).unwrap();
    let mut grown = [0x5a].repeat(view.grown_len().expect("it fits"));
    view.grow_into(&mut grown);
    assert_eq!(grown, written.grown().bytes);
}

macro_rules! properties {
    ($($name:ident: $key:literal, $value:literal, $hash:ty;)*) => {
        $(
            #[test]
            fn $name() {
                let mut random = Random($key * 1000 + $value);
                for _ in 0..40 {
                    bytes_are_equal::<$key, $value, $hash>(&mut random);
                    growth_is_equal::<$key, $value, $hash>(&mut random);
                }
            }
        )*
    };
}

properties! {
    none_and_none: 0, 0, FxHashFn;
    one_and_none: 1, 0, FxHashFn;
    none_and_three: 0, 3, FxHashFn;
    two_and_one: 2, 1, FxHashFn;
    four_and_four: 4, 4, FxHashFn;
    eight_and_four: 8, 4, FxHashFn;
    sixteen_and_eight: 16, 8, FxHashFn;
    thirty_one_and_five: 31, 5, FxHashFn;
    sixty_five_and_eight: 65, 8, FxHashFn;
    twice_sixty_four_and_four: 128, 4, FxHashFn;
    most_and_four: 255, 4, FxHashFn;
    most_and_most: 255, 255, FxHashFn;
    four_and_four_direct: 4, 4, UnHashFn;
    eight_and_four_direct: 8, 4, UnHashFn;
    twenty_and_none_direct: 20, 0, UnHashFn;
    twice_sixty_four_and_four_direct: 128, 4, UnHashFn;
}
