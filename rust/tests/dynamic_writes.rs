//! Dynamic tables: the lengths of keys and values are known only at run time, as they are written:
//! one of each length of keys and of values, beside a second writing; what is rejected; and one of
//! a configuration, beside it.

use crate::common::dynamic::{compare, some_bytes};
use crate::common::frame::Named;
use crate::common::random::Random;
use crate::common::reading::Format;
use crate::common::writing::Writing;
use odht::configs::U64ToU32;
use odht::dynamic::{DynError, DynTable, Layout};
use odht::{bytes_needed, Error, FxHashFn, HashFn, HashTable, UnHashFn};

fn layout_of(format: Format) -> Layout {
    Layout { key_len: format.key as u8, value_len: format.value as u8 }
}

// Inserts a pair into a table that cannot grow and into the second writing, and compares what is returned and left.
fn insert_both<H: HashFn>(
    table: &mut DynTable<H, Vec<u8>>,
    writing: &mut Writing,
    (key, value): (&[u8], &[u8]),
) {
    let expected = if writing.is_full_for(key) {
        Err(DynError::Rejected(Error::Full))
    } else {
        Ok(writing.put(key, value).expect("a free slot"))
    };
    let mut other = DynTable::<H, _>::open(table.layout(), table.raw_bytes().to_vec()).unwrap();
    let former = table.insert(key, value).map(|former| former.map(|it| it.to_vec()));
    assert_eq!(former, expected);
    assert_eq!(table.raw_bytes(), writing.bytes);
    let mut left = vec![9; value.len()];
    let told = other.insert_into(key, value, &mut left);
    assert_eq!(told.as_ref().map(|it| *it), expected.as_ref().map(|former| former.is_some()));
    assert_eq!(left, expected.ok().flatten().unwrap_or(vec![9; value.len()]));
    assert_eq!(other.raw_bytes(), writing.bytes);
}

// Replaces both by the tables that they grow into.
fn grow_both<H: HashFn>(table: &mut DynTable<H, Vec<u8>>, writing: &mut Writing) {
    *writing = writing.grown();
    let mut grown = vec![7; table.grown_len().unwrap()];
    table.grow_into(&mut grown);
    assert_eq!(grown, writing.bytes);
    *table = DynTable::open(table.layout(), grown).unwrap();
}

// A new table, up to twice as many pairs as it takes, of which some keys come again, a growth, and the same again.
fn build_both<H: Named>(format: Format, random: &mut Random) {
    let layout = layout_of(format);
    let mut writing = Writing::new(format, 3, 87);
    assert_eq!(layout.bytes_needed(3, 87), Some(writing.bytes.len()));
    let data = some_bytes(random, writing.bytes.len());
    let mut table = DynTable::<H, _>::init_in_place(layout, data, 3, 87).unwrap();
    assert_eq!(table.raw_bytes(), writing.bytes);
    let keys: Vec<_> = (0..20).map(|_| some_bytes(random, format.key)).collect();
    for _ in 0..2 {
        for _ in 0..26 {
            let key = &keys[random.below(keys.len())];
            insert_both(&mut table, &mut writing, (key, &some_bytes(random, format.value)));
        }
        grow_both(&mut table, &mut writing);
    }
    let bytes = table.into_data();
    let table = DynTable::<H, _>::open_as_stated(&bytes[..]).unwrap();
    assert!(table.verify());
    compare(&table, &writing.reading(), random);
}

fn build_each_length<H: Named>(least: usize) {
    let mut random = Random(6);
    for key in least..=255 {
        for value in [0, 1, 7, 255 - key, 255] {
            build_both::<H>(Format::new(key, value, H::HASH), &mut random);
        }
    }
}

#[test]
fn each_length_is_written() {
    build_each_length::<FxHashFn>(0);
    build_each_length::<UnHashFn>(4);
}

// A key or a value of another length is an error, and changes nothing, in a full table too.
#[test]
fn other_lengths_are_not_inserted() {
    let mut table = Writing::new(Format::new(8, 4, FxHashFn::HASH), 3, 87);
    for number in 0..13_u8 {
        table.put(&[number; 8], &[number; 4]).expect("a free slot");
        let mut view = DynTable::<FxHashFn, _>::open_as_stated(table.bytes.clone()).unwrap();
        for len in (0..300).filter(|len| *len != 8) {
            let wrong_key = DynError::WrongKeyLength { expected: 8, found: len };
            assert_eq!(view.insert(&vec![0; len], &[1; 4]), Err(wrong_key));
        }
        for len in (0..300).filter(|len| *len != 4) {
            let wrong_value = DynError::WrongValueLength { expected: 4, found: len };
            assert_eq!(view.insert(&[0; 8], &vec![1; len]), Err(wrong_value));
            let mut former = vec![9; len];
            let answer = view.insert_into(&[0; 8], &[1; 4], &mut former);
            let wrong_former = DynError::WrongValueLength { expected: 4, found: len };
            assert_eq!((answer, former), (Err(wrong_former), vec![9; len]));
        }
        let both = DynError::WrongKeyLength { expected: 8, found: 7 };
        assert_eq!(view.insert(&[0; 7], &[1; 5]), Err(both));
        assert_eq!(view.raw_bytes(), table.bytes);
    }
    let text = DynError::WrongKeyLength { expected: 8, found: 3 }.to_string();
    assert_eq!(text, "the key has 3 bytes, and those of the table have 8");
    let text = DynError::WrongValueLength { expected: 4, found: 3 }.to_string();
    assert_eq!(text, "the value has 3 bytes, and those of the table have 4");
}

#[test]
fn new_tables_are_refused() {
    let new = |key_len, len, items| {
        let layout = Layout { key_len, value_len: 1 };
        DynTable::<UnHashFn, _>::init_in_place(layout, vec![7; len], items, 87).err()
    };
    assert_eq!(new(3, 0, 1), Some(DynError::KeyTooShort { key_len: 3, least: 4 }));
    assert_eq!(new(4, 0, usize::MAX), Some(DynError::Rejected(Error::Capacity)));
    let wrong = Error::InitLength { found: 143, expected: 144 };
    assert_eq!(new(4, 143, 1), Some(DynError::Rejected(wrong)));
    assert_eq!(new(4, 144, 1), None);
    assert_eq!(Layout { key_len: 4, value_len: 1 }.bytes_needed(usize::MAX, 87), None);
}

// The same list of items into a table of a configuration and one of these lengths leaves the same bytes.
#[test]
fn a_configuration_and_its_lengths() {
    let mut random = Random(7);
    let layout = Layout::of::<U64ToU32>();
    for items in [1, 13, 14, 200, 3000] {
        let len = bytes_needed::<U64ToU32>(items, 87);
        assert_eq!(layout.bytes_needed(items, 87), Some(len));
        let mut typed =
            HashTable::<U64ToU32, _>::try_init_in_place(vec![0; len], items, 87).unwrap();
        let mut table =
            DynTable::<FxHashFn, _>::init_in_place(layout, vec![1; len], items, 87).unwrap();
        for _ in 0..2 * items {
            let (key, value) = (random.below(2 * items) as u64, random.below(1 << 30) as u32);
            let expected = typed.try_insert(&key, &value);
            let found = table.insert(&key.to_le_bytes(), &value.to_le_bytes());
            let expected = expected.map(|former| former.map(|it| it.to_le_bytes().to_vec()));
            let found = found.map(|former| former.map(|it| it.to_vec()));
            assert_eq!(found, expected.map_err(DynError::Rejected));
        }
        assert_eq!(table.raw_bytes(), typed.raw_bytes());
        assert_eq!(table.grown_len(), typed.grown_len());
    }
}
