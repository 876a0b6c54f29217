//! Dynamic tables: the lengths of keys and values are known only at run time, as they are read: one
//! of each length of keys and of values, beside a second reading; what is rejected; and a store
//! that gives other bytes. That their calls return what those of a configuration do, on any bytes,
//! is seen where those are tested (`common/frame.rs`, `vectors.rs`).

use crate::common::dynamic::{compare, orders_are_found, some_bytes};
use crate::common::frame::Named;
use crate::common::orders::exchanged;
use crate::common::outcomes::outcome;
use crate::common::random::Random;
use crate::common::reading::{Format, Hash, Reading};
use crate::common::writing::Writing;
use odht::configs::U64ToU32;
use odht::dynamic::{DynError, DynTable, Layout};
use odht::{Error, FxHashFn, HashFn, HashTableOwned, Part, UnHashFn};
use std::borrow::{Borrow, BorrowMut};
use std::cell::Cell;

// A table of up to 40 pairs.
fn some_table(format: Format, random: &mut Random) -> Writing {
    let mut table = Writing::new(format, 3, 87);
    for _ in 0..random.below(40) {
        let (key, value) = (some_bytes(random, format.key), some_bytes(random, format.value));
        table.insert(&key, &value);
    }
    table
}

// Looks up a list of keys, in turn those of the table and ones of another length.
fn compare_list<H: HashFn>(table: &DynTable<H, &[u8]>, reading: &Reading<'_>) {
    let pairs = reading.occupied().map(|slot| [reading.key(slot), &[0; 256]]);
    let keys: Vec<&[u8]> = pairs.flatten().collect();
    let mut values = vec![Some(&b"left"[..]); keys.len()];
    table.get_all(&keys, &mut values);
    let expected = reading.occupied().map(|slot| [Some(reading.value(slot)), None]);
    assert!(values.into_iter().eq(expected.flatten()));
}

// Opens the table in front of other bytes, with the lengths that are given, and with those of its header.
fn compare_fronts<H: HashFn>(layout: Layout, table: &Writing) {
    let file = [&table.bytes[..], b"and more"].concat();
    assert_eq!(layout.table_len(&file), Ok(table.bytes.len()));
    let given = DynTable::<H, _>::open_prefix(layout, &file).unwrap();
    let stated = DynTable::<H, _>::open_prefix_as_stated(&file).unwrap();
    for (front, rest) in [given, stated] {
        assert_eq!(
            (front.layout(), front.raw_bytes(), rest),
            (layout, &table.bytes[..], &b"and more"[..])
        );
    }
    for len in [0, 31, 32, table.bytes.len() - 1] {
        let (cut, error) = (&file[..len], layout.table_len(&file[..len]).unwrap_err());
        let rejected = Some(DynError::Rejected(error));
        assert_eq!(DynTable::<H, _>::open_prefix(layout, cut).err(), rejected);
        assert_eq!(DynTable::<H, _>::open_prefix_as_stated(cut).err(), rejected);
    }
}

fn each_length_of<H: Named>(least: usize) {
    let mut random = Random(4);
    for key in least..=255 {
        for value in [0, 1, 7, 8, 255 - key, key, 255] {
            let table = some_table(Format::new(key, value, H::HASH), &mut random);
            let layout = Layout { key_len: key as u8, value_len: value as u8 };
            let opened = DynTable::<H, _>::open(layout, &table.bytes[..]).unwrap();
            compare(&opened, &table.reading(), &mut random);
            let stated = DynTable::<H, _>::open_as_stated(&table.bytes[..]).unwrap();
            compare(&stated, &table.reading(), &mut random);
            compare_list(&stated, &table.reading());
            compare_fronts::<H>(layout, &table);
            assert_eq!(stated.into_data(), table.bytes);
        }
    }
}

#[test]
fn each_length() {
    each_length_of::<FxHashFn>(0);
    each_length_of::<UnHashFn>(4);
}

// A nearly full table of few homes, with some slots exchanged. Whether inserts make it, if it is valid.
fn exchange(key: usize, value: usize, random: &mut Random) -> Option<bool> {
    let format = Format::new(key, value, Hash::Un);
    let slots = 16 << random.below(3);
    let mut table = Writing::with_slots(format, slots, u16::MAX);
    for _ in 0..slots - 1 - random.below(3) {
        let (mut key, value) = (some_bytes(random, key), some_bytes(random, value));
        let last = key.len() - 4;
        key[last] %= 1 << (key[0] % 4);
        table.insert(&key, &value);
    }
    let bytes = exchanged(random, &table.reading());
    let reading = Reading::new(format, &bytes);
    let table = DynTable::<UnHashFn, _>::open_as_stated(&bytes[..]).ok()?;
    table.verify().then(|| orders_are_found(&table, &reading))
}

// No ready configuration has keys of these lengths.
#[test]
fn tables_that_no_inserts_make() {
    let (mut random, mut made, mut unmade) = (Random(9), 0, 0);
    for key in [5, 6, 7, 9, 13, 17, 21, 33, 63, 65, 255] {
        for round in 0..400 {
            match exchange(key, [0, 1, 6, 40][round % 4], &mut random) {
                Some(true) => made += 1,
                Some(false) => unmade += 1,
                None => {}
            }
        }
    }
    assert!(made > 200 && unmade > 40, "{made} made, {unmade} not");
}

#[test]
fn lists_are_inserted_in_turn() {
    let mut random = Random(6);
    for key in 0..40 {
        let layout = Layout { key_len: key, value_len: 3 };
        let mut expected = Writing::new(Format::new(usize::from(key), 3, FxHashFn::HASH), 50, 87);
        let bytes = vec![0; layout.bytes_needed(50, 87).unwrap()];
        let mut table = DynTable::<FxHashFn, _>::init_in_place(layout, bytes, 50, 87).unwrap();
        let mut pair = || (some_bytes(&mut random, key.into()), some_bytes(&mut random, 3));
        let pairs: Vec<_> = (0..40).map(|_| pair()).collect();
        let mut items: Vec<(&[u8], &[u8])> = pairs.iter().map(|(k, v)| (&k[..], &v[..])).collect();
        for (key, value) in &pairs {
            expected.insert(key, value);
        }
        assert_eq!(table.insert_all(&items), (40, Ok(())));
        assert_eq!(table.raw_bytes(), expected.bytes);
        items.insert(7, (&[0; 256], b"one"));
        let error = DynError::WrongKeyLength { expected: key, found: 256 };
        assert_eq!(table.insert_all(&items), (7, Err(error)));
        items[7] = (items[0].0, b"four");
        let error = DynError::WrongValueLength { expected: 3, found: 4 };
        assert_eq!(table.insert_all(&items), (7, Err(error)));
    }
}

// No slot is free: the search for an absent key reads each group once.
#[test]
fn no_free_slot() {
    let mut table = Writing::with_slots(Format::new(5, 3, FxHashFn::HASH), 64, 65535);
    for number in 0..64 {
        table.put(&[number, 1, 2, 3, 4], &[number; 3]).expect("a free slot");
    }
    let opened = DynTable::<FxHashFn, _>::open_as_stated(&table.bytes[..]).unwrap();
    compare(&opened, &table.reading(), &mut Random(5));
    assert_eq!(opened.get_counted(&[64, 1, 2, 3, 4]), (None, 4));
    assert_eq!(opened.get_counted(&[1, 2, 3, 4]), (None, 0));
}

fn error<H: HashFn>(key_len: u8, value_len: u8, bytes: &[u8]) -> Option<DynError> {
    DynTable::<H, _>::open(Layout { key_len, value_len }, bytes).err()
}

#[test]
fn keys_that_are_too_short_are_rejected_first() {
    let table = Writing::new(Format::new(3, 1, FxHashFn::HASH), 3, 87);
    for bytes in [&table.bytes[..], b"", b"no table"] {
        for key_len in 0..4 {
            let too_short = DynError::KeyTooShort { key_len, least: 4 };
            assert_eq!(error::<UnHashFn>(key_len, 1, bytes), Some(too_short));
        }
    }
    let stated = DynTable::<UnHashFn, _>::open_as_stated(&table.bytes[..]).err();
    assert_eq!(stated, Some(DynError::KeyTooShort { key_len: 3, least: 4 }));
    let text = stated.map(|error| error.to_string());
    assert_eq!(text.as_deref(), Some("keys have 3 bytes, and the hash function needs 4"));
    assert!(error::<FxHashFn>(3, 1, &table.bytes).is_none());
}

#[test]
fn other_lengths_are_rejected() {
    let table = Writing::new(Format::new(8, 4, FxHashFn::HASH), 3, 87);
    let wrong = |part, expected, found| {
        Some(DynError::Rejected(Error::WrongSizeOf { part, expected, found }))
    };
    assert_eq!(error::<FxHashFn>(4, 8, &table.bytes), wrong(Part::EncodedKey, 4, 8));
    assert_eq!(error::<FxHashFn>(8, 5, &table.bytes), wrong(Part::EncodedValue, 5, 4));
    for len in 0..table.bytes.len() {
        let opened = DynTable::<FxHashFn, _>::open_as_stated(&table.bytes[..len]).err();
        assert_eq!(opened, error::<FxHashFn>(8, 4, &table.bytes[..len]));
        assert!(opened.is_some());
    }
}

// The length of a table of these lengths and of a forged slot count is in no 64 bits.
#[test]
fn slot_counts_are_not_believed() {
    for power in 4..64 {
        let mut bytes = Writing::new(Format::new(255, 255, FxHashFn::HASH), 3, 87).bytes;
        bytes[16..24].copy_from_slice(&(1_u64 << power).to_le_bytes());
        let opened = DynTable::<FxHashFn, _>::open_as_stated(&bytes[..]);
        assert_eq!(opened.is_ok(), power == 4);
    }
}

#[test]
fn a_table_of_a_configuration() {
    let table = HashTableOwned::<U64ToU32>::from_iterator((0..100).map(|n| (n, n as u32)), 87);
    let layout = Layout::of::<U64ToU32>();
    let view = DynTable::<FxHashFn, _>::open(layout, table.raw_bytes().to_vec()).unwrap();
    for key in 0..200_u64 {
        let value = table.get(&key).map(u32::to_le_bytes);
        assert_eq!(view.get(&key.to_le_bytes()), value.as_ref().map(|it| &it[..]));
    }
    assert_eq!(format!("{view:?}").matches("]: [").count(), 100);
}

// Bytes of two tables in turn.
struct Fickle {
    buffers: [Vec<u8>; 2],
    asked: Cell<usize>,
}

impl Borrow<[u8]> for Fickle {
    fn borrow(&self) -> &[u8] {
        let asked = self.asked.get();
        self.asked.set(asked + 1);
        &self.buffers[asked % 2]
    }
}

impl BorrowMut<[u8]> for Fickle {
    fn borrow_mut(&mut self) -> &mut [u8] {
        let asked = self.asked.get();
        self.asked.set(asked + 1);
        &mut self.buffers[asked % 2]
    }
}

#[test]
fn other_bytes_than_those_that_were_opened() {
    let table = |items| Writing::new(Format::new(8, 4, FxHashFn::HASH), items, 87).bytes;
    let fickle = Fickle { buffers: [table(3), table(300)], asked: Cell::new(0) };
    let mut view = DynTable::<FxHashFn, _>::open_as_stated(fickle).unwrap();
    let others = "the bytes of a table are not those that were opened";
    assert_eq!(outcome(|| view.len()), Err(others.to_string()));
    assert_eq!(outcome(|| view.len()), Ok(0));
    assert_eq!(outcome(|| view.get(&[0; 8]).is_some()), Err(others.to_string()));
    assert_eq!(outcome(|| view.iter().count()), Ok(0));
    assert_eq!(outcome(|| view.insert(&[0; 8], &[1; 4]).is_ok()), Err(others.to_string()));
    assert_eq!(outcome(|| view.insert(&[0; 8], &[1; 4]).is_ok()), Ok(true));
    assert_eq!(outcome(|| view.grown_len()), Err(others.to_string()));
    assert_eq!(outcome(|| view.get(&[0; 8]) == Some(&[1; 4])), Ok(true));
}
