//! Tables whose header has an item count that is not true: nothing is allocated by it, and nothing overflows. And
//! tables with bytes that were changed at random.

use crate::common::{worked_example, Chance, Random};
use odht_ffi::{Builder, Error, Shape, Sizes, Table, TableMut, B32, U64U32};

fn stating(count: u64) -> Vec<u8> {
    let mut bytes = worked_example();
    bytes[8..16].copy_from_slice(&count.to_le_bytes());
    bytes
}

/// Far above the number of slots, and just above it.
const HUGE: [u64; 5] = [u64::MAX, 1 << 63, (1 << 63) - 1, 1 << 40, 17];

#[test]
fn a_walk_ends_behind_the_last_slot() {
    for count in HUGE.into_iter().chain([0, 1, 2, 4]) {
        let bytes = stating(count);
        let table = Table::<U64U32>::open(&bytes).unwrap();
        assert_eq!(table.len() as u64, count);
        assert_eq!(table.is_empty(), count == 0);
        let pairs: Vec<(u64, u32)> = table.iter().collect();
        assert_eq!(pairs, [(1, 2), (5, 6), (3, 4)]);
    }
}

#[test]
fn bounds_of_a_walk_come_from_the_slots() {
    let bytes = stating(u64::MAX);
    let mut pairs = Table::<U64U32>::open(&bytes).unwrap().iter();
    assert_eq!(pairs.size_hint(), (0, Some(16)));
    assert_eq!(pairs.next(), Some((1, 2)));
    assert_eq!(pairs.size_hint(), (2, Some(2)));
    assert_eq!(pairs.by_ref().count(), 2);
    assert_eq!((pairs.next(), pairs.next()), (None, None));
}

#[test]
fn lookups_do_not_ask_for_the_count() {
    let bytes = stating(u64::MAX);
    let table = Table::<U64U32>::open(&bytes).unwrap();
    assert_eq!(table.get_all(&[1, 2, 3]), [Some(2), None, Some(4)]);
    assert_eq!(table.sizes(), Sizes { slots: 16, max_items: 15, percent: 94 });
}

#[test]
fn a_table_is_found_in_longer_bytes() {
    let table = worked_example();
    for (before, behind) in [(0, 0), (0, 1), (1, 300), (7, 7)] {
        let file = [vec![79; before], table.clone(), vec![79; behind]].concat();
        let len = Table::<U64U32>::table_len(&file[before..]).unwrap();
        assert_eq!(len, 256);
        assert_eq!(Table::<U64U32>::open(&file[before..][..len]).unwrap().get(&3), Some(4));
        let (opened, rest) = Table::<U64U32>::open_prefix(&file[before..]).unwrap();
        assert_eq!((opened.get(&3), opened.get(&4), opened.len()), (Some(4), None, 3));
        assert_eq!(opened.bytes().as_ptr_range(), file[before..][..256].as_ptr_range());
        assert_eq!(rest.as_ptr_range(), file[before + 256..].as_ptr_range());
    }
    for length in 0..table.len() {
        let expected = if length < 32 { Error::TooShort } else { Error::WrongLength };
        no_front::<U64U32>(&table[..length], expected);
    }
    no_front::<B32>(&table, Error::WrongSize);
    let mut forged = table;
    forged[16..24].copy_from_slice(&(1_u64 << 63).to_le_bytes());
    no_front::<U64U32>(&forged, Error::WrongLength);
}

fn no_front<S: Shape>(bytes: &[u8], error: Error) {
    assert_eq!(Table::<S>::table_len(bytes), Err(error));
    assert_eq!(Table::<S>::open_prefix(bytes).map(|_| ()), Err(error));
}

/// Errors of slots come where the length is right, and those behind the table never.
#[test]
fn a_front_is_opened_as_a_table_is() {
    let file = [worked_example(), worked_example()].concat();
    let opened = |at: usize, byte| {
        let mut file = file.clone();
        file[at] = byte;
        Table::<U64U32>::open_prefix(&file).map(|(table, rest)| (table.len(), rest.len()))
    };
    assert_eq!(opened(32, 0), Ok((3, 256)));
    assert_eq!(opened(32, 7), Err(Error::NonZeroEmpty));
    assert_eq!(opened(92, 3), Err(Error::ControlMismatch));
    for at in 256..file.len() {
        assert_eq!(opened(at, 85), Ok((3, 256)));
    }
}

#[test]
fn orders_and_growth_are_refused() {
    for count in HUGE {
        let bytes = stating(count);
        let table = Table::<U64U32>::open(&bytes).unwrap();
        assert_eq!(table.insert_order(), Err(Error::WrongItemCount));
        assert_eq!(table.grown(), Err(Error::TooManyItems));
        assert_eq!(table.grown_len(), Err(Error::TooManyItems));
    }
}

#[test]
fn inserts_of_new_keys_are_refused() {
    for count in HUGE {
        let mut bytes = stating(count);
        let mut table = TableMut::<U64U32>::open(&mut bytes).unwrap();
        assert_eq!(table.insert(&7, 8), Err(Error::Full));
        assert_eq!(table.insert(&5, 6), Ok(Some(6)));
        assert_eq!(table.insert_all(&[1, 7, 3], &[2, 8, 4]), (1, Err(Error::Full)));
        assert_eq!(table.grow_into(&mut Vec::new()).map(|_| ()), Err(Error::TooManyItems));
        assert_eq!(odht_ffi::insert_growing::<U64U32>(&mut bytes, &7, 8), Err(Error::TooManyItems));
        assert_eq!(bytes, stating(count));
    }
}

/// An insert of the pair `key` to `value` into bytes that are not valid changes no more than docs/FORMAT.md allows.
fn insert_into_changed<S: Shape>(bytes: &mut [u8], key: &S::Key, value: S::Value) {
    let before = bytes.to_vec();
    let mut table = TableMut::<S>::open(bytes).unwrap();
    let answer = table.insert(key, value);
    let count = table.as_table().iter().count();
    assert!(count <= table.as_table().sizes().slots);
    match answer {
        Ok(_) => assert_eq!(before[..8], bytes[..8]),
        Err(error) => {
            assert_eq!(error, Error::Full);
            assert_eq!(before, bytes);
        }
    }
}

/// Whatever was changed: where the bytes open, each call ends, returns no more pairs than slots, and finds what is
/// stored there.
fn read_changed<S: Shape>(bytes: &[u8], key: &S::Key) {
    let Ok(table) = Table::<S>::open(bytes) else { return };
    let slots = table.sizes().slots;
    let pairs: Vec<(S::Key, S::Value)> = table.iter().collect();
    assert!(pairs.len() <= slots && slots < bytes.len());
    let (least, most) = table.iter().size_hint();
    assert!(least <= pairs.len() && pairs.len() <= most.unwrap());
    assert_eq!(table.get_all(&[*key]), [table.get(key)]);
    let valid = table.check();
    // A bound that no table exceeds.
    assert_eq!(table.check_within(slots / 16), valid);
    assert_eq!(table.insert_order().map(|_| ()), valid);
    if valid == Ok(()) {
        assert_eq!(pairs.len(), table.len());
        assert!(pairs.iter().all(|(key, value)| table.get(key) == Some(*value)));
    }
    if let Ok(larger) = table.grown() {
        assert!(larger.len() <= 2 * bytes.len().max(32 + 128 * 65));
        let opened = Table::<S>::checked(&larger).map(|larger| larger.len());
        assert!(valid.is_err() || opened == Ok(table.len()));
    }
}

/// A table of twelve items, and each of its bytes changed in turn: what opens is read, and written.
fn each_byte_changed<S: Shape>()
where
    S::Key: Chance,
    S::Value: Chance,
{
    let random = &mut Random(12);
    let mut builder = Builder::<S>::new(87);
    builder.extend((0..12).map(|_| (S::Key::by_chance(random), S::Value::by_chance(random))));
    let valid = builder.build().unwrap();
    assert_eq!(Table::<S>::checked(&valid).unwrap().len(), 12);
    for place in 0..valid.len() {
        let mut bytes = valid.clone();
        bytes[place] ^= 1 << random.below(8);
        let key = S::Key::by_chance(random);
        read_changed::<S>(&bytes, &key);
        if Table::<S>::open(&bytes).is_ok() {
            insert_into_changed::<S>(&mut bytes, &key, S::Value::by_chance(random));
        }
    }
}

fn change_by_chance<S: Shape>()
where
    S::Key: Chance,
    S::Value: Chance,
{
    let random = &mut Random(11);
    for round in 0..3000 {
        let mut builder = Builder::<S>::new(60 + (round % 40) as u8);
        builder.extend((0..round % 30).map(|_| (S::Key::by_chance(random), S::Value::by_chance(random))));
        let mut bytes = builder.build().unwrap();
        for _ in 0..1 + random.below(3) {
            // Every other change is in the header.
            let bound = if random.below(2) == 0 { 32 } else { bytes.len() };
            let place = random.below(bound);
            bytes[place] = [0, 255, 128, random.next() as u8][random.below(4)];
        }
        let (key, value) = (S::Key::by_chance(random), S::Value::by_chance(random));
        read_changed::<S>(&bytes, &key);
        if Table::<S>::open(&bytes).is_ok() {
            insert_into_changed::<S>(&mut bytes, &key, value);
        }
    }
}

include!("../src/generated/shapes.rs");

macro_rules! test {
    ($(
        $module:ident, $shape:ident, $config:ident:
        $key:ty as $key_kind:ident => $value:ty $(as $value_kind:ident)?, $words:literal;
    )*) => { $(
        #[test]
        fn $module() {
            each_byte_changed::<odht_ffi::$shape>();
            change_by_chance::<odht_ffi::$shape>();
        }
    )* };
}

each_shape!(test);
