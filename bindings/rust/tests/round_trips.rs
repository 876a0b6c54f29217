//! Every shape is compared with the standard library's map.

use std::collections::HashMap;

use crate::common::{Chance, Random};
use odht_ffi::{Builder, Error, Shape, Table, TableMut};

const SEEDS: [u64; 3] = [1, 2, 0xdead_beef];
const COUNTS: [usize; 6] = [0, 1, 13, 64, 200, 1500];
const PERCENTS: [u8; 3] = [50, 87, 100];

type Pairs<S> = Vec<(<S as Shape>::Key, <S as Shape>::Value)>;
type Map<S> = HashMap<<S as Shape>::Key, <S as Shape>::Value>;

/// Pairs of which about one in four has the key of an earlier one.
fn some_pairs<S: Shape>(random: &mut Random, count: usize) -> Pairs<S>
where
    S::Key: Chance,
    S::Value: Chance,
{
    let mut pairs: Pairs<S> = Vec::new();
    for _ in 0..count {
        let again = !pairs.is_empty() && random.below(4) == 0;
        let key = if again { pairs[random.below(pairs.len())].0 } else { S::Key::by_chance(random) };
        pairs.push((key, S::Value::by_chance(random)));
    }
    pairs
}

fn unzip<S: Shape>(pairs: &Pairs<S>) -> (Vec<S::Key>, Vec<S::Value>) {
    pairs.iter().copied().unzip()
}

/// Reads the bytes by each call that reads.
fn read<S: Shape>(bytes: &[u8], map: &Map<S>, random: &mut Random)
where
    S::Key: Chance,
{
    let table = Table::<S>::checked(bytes).unwrap();
    assert_eq!(table.len(), map.len());
    let absent = (0..50).map(|_| S::Key::by_chance(random));
    let asked: Vec<S::Key> = map.keys().copied().chain(absent).collect();
    let expected: Vec<Option<S::Value>> = asked.iter().map(|key| map.get(key).copied()).collect();
    let answers: Vec<Option<S::Value>> = asked.iter().map(|key| table.get(key)).collect();
    assert_eq!(answers, expected);
    assert_eq!(table.get_all(&asked), expected);
    assert!(asked.iter().all(|key| table.contains(key) == map.contains_key(key)));
    let pairs: Pairs<S> = table.iter().collect();
    assert_eq!(pairs.len(), map.len());
    assert_eq!(&pairs.iter().copied().collect::<Map<S>>(), map);
    for block in [1, 2, 7, 63, 64, 65, 5000] {
        assert_eq!(walk_in_blocks(&table, block), pairs);
    }
}

/// The pairs by walks into slices of that many elements.
fn walk_in_blocks<S: Shape>(table: &Table<S>, block: usize) -> Pairs<S> {
    let (mut keys, mut values) = (vec![S::Key::default(); block], vec![S::Value::default(); block]);
    let (mut cursor, mut pairs) = (0, Vec::new());
    loop {
        let walked = table.walk(&mut cursor, &mut keys, &mut values).unwrap();
        assert!(!walked.more || walked.count == block);
        pairs.extend(keys.iter().copied().zip(values.iter().copied()).take(walked.count));
        if !walked.more {
            return pairs;
        }
    }
}

/// Inserts one after the other return the same as those into the map.
fn insert<S: Shape>(pairs: &Pairs<S>, percent: u8) -> (Vec<u8>, Map<S>) {
    let mut bytes = odht_ffi::empty_table::<S>(pairs.len(), percent).unwrap();
    let mut table = TableMut::<S>::open(&mut bytes).unwrap();
    let mut map = HashMap::new();
    for (key, value) in pairs {
        assert_eq!(table.insert(key, *value), Ok(map.insert(*key, *value)));
        assert_eq!(table.as_table().get(key), Some(*value));
        assert_eq!(table.as_table().len(), map.len());
    }
    (bytes, map)
}

/// Inserts of the pairs in the order that `insert_order` returns make the same bytes.
fn insert_in_order<S: Shape>(bytes: &[u8], made_for: usize, percent: u8) {
    let table = Table::<S>::open(bytes).unwrap();
    let order = table.insert_order().unwrap().expect("inserts have made the table");
    let mut slots = order.clone();
    slots.sort_unstable();
    let pair_in: HashMap<usize, (S::Key, S::Value)> = slots.into_iter().zip(&table).collect();
    assert_eq!(pair_in.len(), table.len());
    let mut again = odht_ffi::empty_table::<S>(made_for, percent).unwrap();
    let mut copy = TableMut::<S>::open(&mut again).unwrap();
    for slot in order {
        let (key, value) = pair_in[&slot];
        assert_eq!(copy.insert(&key, value), Ok(None));
    }
    assert_eq!(again, bytes);
}

/// Builds make the same as inserts one after the other.
fn build<S: Shape>(pairs: &Pairs<S>, percent: u8, bytes: &[u8]) {
    let mut builder = Builder::<S>::new(percent);
    builder.extend(pairs.iter().copied());
    assert_eq!((builder.len(), builder.is_empty()), (pairs.len(), pairs.is_empty()));
    assert_eq!(builder.build().unwrap(), bytes);
    let (keys, values) = unzip::<S>(pairs);
    let mut at_once = odht_ffi::empty_table::<S>(pairs.len(), percent).unwrap();
    let answer = TableMut::<S>::open(&mut at_once).unwrap().insert_all(&keys, &values);
    assert_eq!(answer, (pairs.len(), Ok(())));
    assert_eq!(at_once, bytes);
}

fn grow<S: Shape>(pairs: &Pairs<S>) -> Vec<u8> {
    let mut bytes = odht_ffi::empty_table::<S>(0, 87).unwrap();
    let mut map = HashMap::new();
    for (key, value) in pairs {
        let former = odht_ffi::insert_growing::<S>(&mut bytes, key, *value);
        assert_eq!(former, Ok(map.insert(*key, *value)));
    }
    let built: Builder<S> = pairs.iter().copied().collect();
    assert_eq!(built.build_growing().unwrap(), bytes);
    bytes
}

/// A table at its maximum: the one that it grows into has the same pairs, and takes another one.
fn grow_a_full_table<S: Shape>(random: &mut Random)
where
    S::Key: Chance,
    S::Value: Chance,
{
    let mut bytes = odht_ffi::empty_table::<S>(100, 87).unwrap();
    let mut table = TableMut::<S>::open(&mut bytes).unwrap();
    let mut map = HashMap::new();
    let (key, value) = loop {
        let (key, value) = (S::Key::by_chance(random), S::Value::by_chance(random));
        match table.insert(&key, value) {
            Ok(former) => assert_eq!(former, map.insert(key, value)),
            Err(error) => {
                assert_eq!(error, Error::Full);
                break (key, value);
            }
        }
    };
    assert_eq!(map.len(), table.as_table().sizes().max_items);
    let mut larger = Vec::new();
    let mut grown = table.grow_into(&mut larger).unwrap();
    assert_eq!(grown.as_table().sizes().slots, 2 * table.as_table().sizes().slots);
    assert_eq!(grown.as_table().len(), map.len());
    assert_eq!(grown.insert(&key, value), Ok(None));
    map.insert(key, value);
    read::<S>(&larger, &map, random);
}

fn round_trip<S: Shape>()
where
    S::Key: Chance,
    S::Value: Chance,
{
    for seed in SEEDS {
        let random = &mut Random(seed);
        for (count, percent) in COUNTS.into_iter().flat_map(|count| PERCENTS.map(|percent| (count, percent))) {
            let pairs = some_pairs::<S>(random, count);
            let (bytes, map) = insert::<S>(&pairs, percent);
            read::<S>(&bytes, &map, random);
            insert_in_order::<S>(&bytes, count, percent);
            build::<S>(&pairs, percent, &bytes);
            read::<S>(&grow::<S>(&pairs), &map, random);
        }
        grow_a_full_table::<S>(random);
    }
}

include!("../src/generated/shapes.rs");

macro_rules! test {
    ($(
        $module:ident, $shape:ident, $config:ident:
        $key:ty as $key_kind:ident => $value:ty $(as $value_kind:ident)?, $words:literal;
    )*) => { $(
        #[test]
        fn $module() {
            round_trip::<odht_ffi::$shape>();
        }
    )* };
}

each_shape!(test);
