//! Configurations and hash functions that break what they are asked to keep: they answer something else each time, or
//! panic. No call panics of itself, runs for ever or leaves the bytes of the table; in debug builds an index out of bounds
//! would be a panic. What lookups answer is not asked.

use crate::common::outcomes::outcome;
use crate::common::random::Random;
use odht::dynamic::{DynTable, Layout};
use odht::{Config, HashFn, HashTable, HashTableOwned, UnHashFn};
use std::cell::RefCell;

thread_local! {
    static RANDOM: RefCell<Random> = const { RefCell::new(Random(5)) };
    // Of a hundred calls of the user's code that many answer at random, and that many panic.
    static WRONG: RefCell<(usize, usize)> = const { RefCell::new((0, 0)) };
}

const PANIC: &str = "the user's code panics";

// What comes in place of an answer.
fn at_random<T>(answer: T, other: impl FnOnce(&mut Random) -> T) -> T {
    let (wrong, panics) = WRONG.with_borrow(|wrong| *wrong);
    RANDOM.with_borrow_mut(|random| {
        assert!(!random.comes(panics), "{PANIC}");
        if random.comes(wrong) {
            other(random)
        } else {
            answer
        }
    })
}

#[derive(PartialEq, Eq)]
struct FickleHash;

impl HashFn for FickleHash {
    fn hash(bytes: &[u8]) -> u32 {
        at_random(UnHashFn::hash(bytes), |random| random.number() as u32)
    }
}

struct Fickle;

impl Config for Fickle {
    type Key = u32;
    type Value = u16;
    type EncodedKey = [u8; 4];
    type EncodedValue = [u8; 2];
    type H = FickleHash;

    fn encode_key(key: &u32) -> [u8; 4] {
        at_random(key.to_le_bytes(), Random::array)
    }
    fn encode_value(value: &u16) -> [u8; 2] {
        at_random(value.to_le_bytes(), Random::array)
    }
    fn decode_key(key: &[u8; 4]) -> u32 {
        at_random(u32::from_le_bytes(*key), |random| random.number() as u32)
    }
    fn decode_value(value: &[u8; 2]) -> u16 {
        at_random(u16::from_le_bytes(*value), |random| random.number() as u16)
    }
}

fn with_wrong<T>(wrong: usize, panics: usize, call: impl FnOnce() -> T) -> T {
    WRONG.set((wrong, panics));
    let result = call();
    WRONG.set((0, 0));
    result
}

// Runs a call, which may panic in the user's code alone.
fn run<T>(call: impl FnOnce() -> T) -> Option<T> {
    outcome(call).map_err(|text| assert_eq!(text, PANIC)).ok()
}

fn items(random: &mut Random) -> Vec<(u32, u16)> {
    let count = random.below(60);
    (0..count).map(|_| (random.number() as u32 & 0x0f00_00ff, random.number() as u16)).collect()
}

// All calls that read, on both tables.
fn reads(owned: &HashTableOwned<Fickle>, random: &mut Random) {
    let keys: Vec<u32> = items(random).into_iter().map(|(key, _)| key).collect();
    let mut values = vec![None; keys.len()];
    run(|| owned.get_all(&keys, &mut values));
    for key in &keys {
        run(|| (owned.get(key), owned.get_counted(key), owned.contains_key(key)));
    }
    let slots = (owned.raw_bytes().len() - 48) / 7;
    run(|| assert!(owned.iter().count() < slots, "a slot is free"));
    run(|| owned.iter_from(random.below(slots)).count());
    for key in &keys {
        let key = key.to_le_bytes();
        run(|| (owned.get_encoded(&key), owned.contains_encoded(&key)));
    }
    run(|| owned.clone().into_keys().count() + owned.clone().into_values().count());
    let mut order = vec![0; owned.len()];
    run(|| owned.insert_order(&mut order));
    run(|| owned.insert_order_with(&mut order, &mut vec![0; owned.insert_order_scratch()]));
    let twin = run(|| DynTable::<FickleHash, _>::open_as_stated(owned.raw_bytes()));
    if let Some(Ok(twin)) = twin {
        run(|| twin.insert_order(&mut order));
        run(|| twin.insert_order_with(&mut order, &mut vec![0; twin.insert_order_scratch()]));
    }
    run(|| (format!("{owned:?}").len(), owned.clone().len()));
    run(|| (*owned == owned.clone(), owned.has_same_bytes(owned)));
    let view = run(|| HashTable::<Fickle, _>::try_from_raw_bytes(owned.raw_bytes()));
    if let Some(Ok(view)) = view {
        run(|| (view.check_all(), view.verify()));
        run(|| view == owned.as_view());
        run(|| view.get_all(&keys, &mut values));
        let mut grown = vec![0; view.grown_len().unwrap()];
        run(|| view.grow_into(&mut grown));
        run(|| HashTable::<Fickle, _>::try_from_raw_bytes(&grown[..]).map(|view| view.len()));
    }
}

// As many inserts in a view as there is room for, and some more.
fn writes_in_place(random: &mut Random) {
    let percent = 1 + random.below(100) as u8;
    let bytes = vec![0; odht::bytes_needed::<Fickle>(20, percent)];
    let mut view = HashTable::<Fickle, _>::init_in_place(bytes, 20, percent).unwrap();
    for _ in 0..4 {
        let items = items(random);
        run(|| view.try_insert_all(&items));
        for (key, value) in &items {
            run(|| view.try_insert(key, value));
            run(|| view.try_insert_encoded(&(key + 1).to_le_bytes(), value));
        }
        run(|| (view.iter().count(), view.len(), view.check_all()));
    }
}

fn writes(owned: &mut HashTableOwned<Fickle>, random: &mut Random) {
    let items = items(random);
    for (key, value) in &items {
        run(|| owned.try_insert(key, value));
    }
    run(|| owned.try_get_or_insert_with(&(random.number() as u32), || 7));
    for (key, value) in &items {
        run(|| owned.try_insert_encoded(&(key ^ 2).to_le_bytes(), value));
    }
    run(|| owned.try_get_or_insert_encoded_with(&random.array(), || 7));
    run(|| owned.try_reserve(random.below(100)));
    if random.below(4) == 0 {
        run(|| owned.try_shrink_to_fit());
    }
    run(|| owned.extend(items.iter().copied()));
    if random.below(8) == 0 {
        owned.clear();
    }
}

#[test]
fn answers_at_random_do_no_harm() {
    let mut random = Random(6);
    for round in 0..200 {
        let percent = 1 + random.below(100) as u8;
        let mut owned = HashTableOwned::<Fickle>::with_capacity(random.below(20), percent);
        with_wrong([1, 5, 50, 100][round % 4], 0, || {
            for _ in 0..4 {
                writes(&mut owned, &mut random);
                run(|| owned.try_insert_all(&items(&mut random)));
                reads(&owned, &mut random);
            }
            writes_in_place(&mut random);
            run(|| HashTableOwned::<Fickle>::from_iterator(items(&mut random), percent));
        });
        // Each pair is in one slot, and is counted.
        assert_eq!(owned.iter().count(), owned.len());
    }
}

// Single inserts either happen or do not, also where the user's code panics.
#[test]
fn a_panic_in_an_insert_leaves_a_table() {
    let mut random = Random(7);
    for round in 0..200 {
        let mut owned = HashTableOwned::<Fickle>::with_capacity(random.below(20), 87);
        for _ in 0..4 {
            with_wrong(0, [1, 5, 20][round % 3], || {
                writes(&mut owned, &mut random);
                reads(&owned, &mut random);
            });
            let view = HashTable::<Fickle, _>::from_raw_bytes(owned.raw_bytes()).unwrap();
            assert_eq!(view.check_all(), Ok(()));
        }
    }
}

// The same of lists.
#[test]
fn a_panic_in_a_list_leaves_a_table() {
    let mut random = Random(8);
    for round in 0..200 {
        let mut owned = HashTableOwned::<Fickle>::with_capacity(random.below(20), 87);
        for _ in 0..8 {
            with_wrong(0, [1, 5, 20][round % 3], || {
                let items = items(&mut random);
                run(|| owned.try_insert_all(&items));
                run(|| owned.try_extend(items));
                reads(&owned, &mut random);
            });
            let view = HashTable::<Fickle, _>::from_raw_bytes(owned.raw_bytes()).unwrap();
            assert_eq!(view.check_all(), Ok(()));
        }
        with_wrong(0, 3, || writes_in_place(&mut random));
    }
}

// The same of lists in a dynamic table, where only the hash function is the user's code.
#[test]
fn a_panic_in_a_dynamic_list_leaves_a_table() {
    let mut random = Random(9);
    let layout = Layout { key_len: 4, value_len: 2 };
    let mut panics = 0;
    for round in 0..200 {
        let bytes = vec![0; layout.bytes_needed(200, 87).unwrap()];
        let mut table = DynTable::<FickleHash, _>::init_in_place(layout, bytes, 200, 87).unwrap();
        for _ in 0..8 {
            let items: Vec<([u8; 4], [u8; 2])> = items(&mut random)
                .into_iter()
                .map(|(key, value)| (key.to_le_bytes(), value.to_le_bytes()))
                .collect();
            let items: Vec<(&[u8], &[u8])> =
                items.iter().map(|(key, value)| (&key[..], &value[..])).collect();
            let done = with_wrong(0, [1, 5, 20][round % 3], || run(|| table.insert_all(&items)));
            panics += usize::from(done.is_none());
            assert!(table.verify(), "each pair is in one slot, and is counted");
        }
    }
    assert!(panics > 100, "the hash function panics within lists");
}

// Tables of 2^20 slots, where a list looks at eight keys ahead: each key is encoded twice, to two encodings.
#[test]
fn lists_in_a_large_table() {
    let mut random = Random(10);
    let mut owned = HashTableOwned::<Fickle>::with_capacity(900_000, 87);
    for round in 0..60 {
        let wrong = if round % 10 == 9 { (0, 1) } else { ([5, 50, 100][round % 3], 0) };
        with_wrong(wrong.0, wrong.1, || {
            let items: Vec<(u32, u16)> = (0..8).flat_map(|_| items(&mut random)).collect();
            run(|| owned.try_insert_all(&items));
            let keys: Vec<u32> = items.iter().map(|(key, _)| *key).collect();
            run(|| owned.get_all(&keys, &mut vec![None; keys.len()]));
        });
    }
    assert_eq!(owned.iter().count(), owned.len());
}
