//! What calls may answer and change on bytes that a view opens and that need not be valid: the frame of
//! docs/FORMAT.md, "Accepted but invalid bytes", beside the second reading.

use super::configs::Plain;
use super::outcomes::outcome;
use super::random::Random;
use super::reading::{Format, Hash, Reading};
use odht::dynamic::{DynError, DynTable, FileError, FileTable, Layout};
use odht::{check_all, check_all_within, table_len, Error, FxHashFn};
use odht::{HashFn, HashTable, HashTableOwned, UnHashFn};

/// The format's name of a hash function.
pub trait Named: HashFn {
    const HASH: Hash;
}

impl Named for FxHashFn {
    const HASH: Hash = Hash::Fx;
}

impl Named for UnHashFn {
    const HASH: Hash = Hash::Un;
}

/// The format of a configuration.
pub const fn format<const K: usize, const V: usize, H: Named>() -> Format {
    Format::new(K, V, H::HASH)
}

type View<'b, const K: usize, const V: usize, H> = HashTable<Plain<K, V, H>, &'b [u8]>;

fn text<T, E: ToString>(result: Result<T, E>) -> Option<String> {
    result.err().map(|error| error.to_string())
}

/// Compares what opening, the whole check and the table that owns its bytes say of the bytes with the second reading,
/// and makes each call on the view, if there is one. Returns the error of the whole check.
pub fn calls_stay_in_frame<const K: usize, const V: usize, H: Named>(
    bytes: &[u8],
    random: &mut Random,
) -> Option<String> {
    let reading = Reading::new(format::<K, V, H>(), bytes);
    let (opening, whole) = (reading.open_error(), reading.check_error());
    let view = View::<K, V, H>::from_raw_bytes(bytes);
    assert_eq!(text(view.as_ref()), opening);
    assert_eq!(text(View::<K, V, H>::try_from_raw_bytes(bytes)), opening);
    assert_eq!(text(check_all::<Plain<K, V, H>>(bytes)), whole);
    fronts_are_read::<K, V, H>(&reading);
    lengths_as_numbers::<K, V, H>(&reading, random);
    let owned = HashTableOwned::<Plain<K, V, H>>::from_raw_bytes(bytes);
    assert_eq!(text(owned.as_ref()), whole);
    if let Ok(owned) = owned {
        assert_eq!(owned.raw_bytes(), bytes);
        same_orders(&owned);
    }
    bound_is_kept(&reading, &whole, view.as_ref().ok(), 1 + random.below(3));
    if let Ok(view) = view {
        assert_eq!(text(view.check_all()), whole);
        assert_eq!(view.verify(), whole.is_none());
        reads_stay_in_frame(&view, &reading, random);
        inserts_stay_in_frame::<K, V, H>(&reading, random);
        grows(&view, &reading);
    }
    whole
}

// A table whose lengths are numbers is opened where the view is, with the same error, and returns what that returns.
fn lengths_as_numbers<const K: usize, const V: usize, H: Named>(
    reading: &Reading<'_>,
    random: &mut Random,
) {
    let layout = Layout { key_len: K as u8, value_len: V as u8 };
    let opened = DynTable::<H, _>::open(layout, reading.bytes);
    let stated = DynTable::<H, _>::open_as_stated(reading.bytes);
    let lying = FileTable::<H, _>::open(layout, reading.bytes, reading.bytes.len());
    let lying_stated = FileTable::<H, _>::open_as_stated(reading.bytes, reading.bytes.len());
    let stated_layout = stated.as_ref().map(DynTable::layout);
    match lying_stated.map(|table| table.layout()) {
        Err(FileError::Table(error)) => assert_eq!(Err(&error), stated_layout),
        layout => assert_eq!(layout.ok(), stated_layout.ok()),
    }
    let (table, view) = match (opened, View::<K, V, H>::try_from_raw_bytes(reading.bytes)) {
        (Ok(table), Ok(view)) => (table, view),
        (opened, view) => {
            let rejected = |error: &Error| Some(DynError::Rejected(*error));
            let error = view.as_ref().err();
            assert_eq!(lying.err(), error.and_then(rejected).map(FileError::Table));
            assert_eq!(opened.err(), error.and_then(rejected));
            assert!(stated.map_or(true, |table| table.layout() != layout));
            return;
        }
    };
    assert_eq!(stated.unwrap().layout(), layout);
    let lying = lying.unwrap();
    assert_eq!((table.len(), lying.len()), (view.len(), view.len()));
    assert_eq!(table.check_rest(), view.check_all());
    assert_eq!(table.verify(), view.verify());
    let groups = random.below(reading.slots() / 16 + 2);
    assert_eq!(table.searches_within(groups), reading.first_longer(groups).is_none());
    let typed = check_all_within::<Plain<K, V, H>>(reading.bytes, groups);
    assert_eq!(table.check_rest_within(groups), typed);
    let typed: Vec<_> = view.iter_from(0).collect();
    let typed = typed.iter().map(|(slot, (key, value))| (*slot, (&key[..], &value[..])));
    assert!(table.iter_from(0).eq(typed));
    orders_are_looked_for(&table, reading);
    for _ in 0..10 {
        let key: [u8; K] = some_key(reading, random);
        let (value, groups) = view.get_counted(&key);
        let counted = (value.as_ref().map(|it| &it[..]), groups);
        assert_eq!(table.get_counted(&key), counted);
        let (value, groups) = lying.get_counted(&key).unwrap();
        assert_eq!((value.as_deref(), groups), counted);
        assert_eq!(table.get_counted(&[&key[..], &[0]].concat()), (None, 0));
    }
}

// On any bytes that are opened an order is looked for exactly where the item count is that of the occupied slots.
fn orders_are_looked_for<H: HashFn>(table: &DynTable<H, &[u8]>, reading: &Reading<'_>) {
    if reading.count() > 1 << 16 {
        return;
    }
    let mut order = vec![1 << 40; reading.count()];
    let mut scratch = vec![1 << 40; table.insert_order_scratch()];
    let ends = [
        outcome(|| table.insert_order(&mut order)),
        outcome(|| table.insert_order_with(&mut order, &mut scratch)),
    ];
    let is_counted = reading.occupied().count() == reading.count();
    assert!(ends.iter().all(|end| end.is_ok() == is_counted));
    assert!(ends.iter().flat_map(|end| end.as_ref().err()).all(|it| it.contains("occupied")));
}

// A valid table whose lengths are numbers has an order of inserts where the typed one has, and it is the same.
fn same_orders<const K: usize, const V: usize, H: Named>(owned: &HashTableOwned<Plain<K, V, H>>) {
    let twin = DynTable::<H, _>::open_as_stated(owned.raw_bytes()).unwrap();
    let mut orders = [(); 4].map(|()| vec![usize::MAX; owned.len()]);
    let [first, second, third, fourth] = &mut orders;
    let is_made = owned.insert_order(first);
    assert_eq!(twin.insert_order(second), is_made);
    let mut scratch = vec![7; twin.insert_order_scratch()];
    assert_eq!(owned.insert_order_with(third, &mut scratch), is_made);
    assert_eq!(twin.insert_order_with(fourth, &mut scratch), is_made);
    assert!(orders[0] == orders[1]);
    assert!(!is_made || orders.iter().all(|order| *order == orders[0]));
}

// Compares what the calls with a bound of searches say of the bytes, and of the view, if there is one, with the second
// reading.
fn bound_is_kept<const K: usize, const V: usize, H: Named>(
    reading: &Reading<'_>,
    whole: &Option<String>,
    view: Option<&View<'_, K, V, H>>,
    groups: usize,
) {
    let expected = reading.error_within(whole, groups);
    assert_eq!(text(check_all_within::<Plain<K, V, H>>(reading.bytes, groups)), expected);
    let owned = HashTableOwned::<Plain<K, V, H>>::from_raw_bytes_within(reading.bytes, groups);
    assert_eq!(text(owned.as_ref()), expected);
    assert!(owned.map_or(true, |owned| owned.raw_bytes() == reading.bytes));
    if let Some(view) = view {
        assert_eq!(view.verify_within(groups), expected.is_none());
        assert_eq!(view.searches_within(groups), reading.first_longer(groups).is_none());
    }
}

/// Compares what the calls say of a table at the front of the bytes with the second reading. Returns its length, where
/// it is opened.
pub fn fronts_are_read<const K: usize, const V: usize, H: Named>(
    reading: &Reading<'_>,
) -> Option<usize> {
    let bytes = reading.bytes;
    let len = table_len::<Plain<K, V, H>>(bytes).map_err(|error| error.to_string());
    assert_eq!(len, reading.front_len());
    let opened = View::<K, V, H>::open_prefix(bytes);
    let Ok(len) = len else {
        assert_eq!(text(opened), len.err());
        return None;
    };
    let (front, rest) = bytes.split_at(len);
    assert_eq!(text(opened.as_ref()), Reading::new(reading.format, front).open_error());
    let (view, behind) = opened.ok()?;
    assert_eq!(
        (view.raw_bytes().as_ptr_range(), behind.as_ptr_range()),
        (front.as_ptr_range(), rest.as_ptr_range())
    );
    Some(len)
}

// A key that is stored somewhere, or with one byte changed, or a random one.
fn some_key<const K: usize>(reading: &Reading<'_>, random: &mut Random) -> [u8; K] {
    let mut key: [u8; K] = reading.key(random.below(reading.slots())).try_into().unwrap();
    match random.below(4) {
        0 => random.array(),
        1 if K > 0 => {
            key[random.below(K)] = random.byte();
            key
        }
        _ => key,
    }
}

fn reads_stay_in_frame<const K: usize, const V: usize, H: Named>(
    view: &View<'_, K, V, H>,
    reading: &Reading<'_>,
    random: &mut Random,
) {
    let (slots, occupied) = (reading.slots(), reading.occupied());
    assert_eq!(view.len(), reading.count());
    assert_eq!(view.is_empty(), reading.count() == 0);
    let pair = |slot| (slot, (reading.key(slot), reading.value(slot)));
    let walk: Vec<_> = occupied.map(pair).collect();
    let found: Vec<_> = view.iter_from(0).collect();
    assert!(found.iter().map(|(slot, (k, v))| (*slot, (&k[..], &v[..]))).eq(walk.iter().copied()));
    assert!(view.iter().eq(found.iter().map(|(_, pair)| *pair)));
    let from = random.below(slots + 4);
    assert!(view.iter_from(from).eq(found.into_iter().filter(|(slot, _)| *slot >= from)));
    let keys: Vec<[u8; K]> = (0..20).map(|_| some_key(reading, random)).collect();
    let mut values = vec![None; keys.len()];
    view.get_all(&keys, &mut values);
    for (key, found) in keys.iter().zip(values) {
        let (value, groups) = view.get_counted(key);
        assert!((1..=slots / 16).contains(&groups));
        assert_eq!((view.get(key), view.contains_key(key)), (value, value.is_some()));
        let mut answers = value.into_iter().chain(found);
        assert!(answers.all(|value| {
            (0..slots).any(|slot| reading.key(slot) == key && reading.value(slot) == value)
        }));
    }
}

// One insert after the other into a copy, and a list into another.
fn inserts_stay_in_frame<const K: usize, const V: usize, H: Named>(
    reading: &Reading<'_>,
    random: &mut Random,
) {
    let list: Vec<([u8; K], [u8; V])> =
        (0..8).map(|_| (some_key(reading, random), random.array())).collect();
    let mut before = reading.bytes.to_vec();
    let mut accepted = 0;
    for (key, value) in &list {
        let mut table = HashTable::<Plain<K, V, H>, _>::from_raw_bytes(before.clone()).unwrap();
        let result = table.try_insert(key, value);
        let after = table.into_data();
        let layout = Layout { key_len: K as u8, value_len: V as u8 };
        let mut twin = DynTable::<H, _>::open(layout, before.clone()).unwrap();
        let former = twin.insert(key, value).map(|former| former.map(|it| it.to_vec()));
        let expected = result.map(|former| former.map(|it| it.to_vec()));
        assert_eq!(former, expected.map_err(DynError::Rejected));
        assert_eq!(twin.into_data(), after);
        assert!(is_framed_insert(reading.format, [&before, &after], (key, value), result));
        before = after;
        if result.is_err() {
            break;
        }
        accepted += 1;
        if HashTable::<Plain<K, V, H>, _>::from_raw_bytes(&before[..]).is_err() {
            return;
        }
    }
    let mut table = HashTable::<Plain<K, V, H>, _>::from_raw_bytes(reading.bytes.to_vec()).unwrap();
    let (count, result) = table.try_insert_all(&list);
    assert_eq!(count == list.len(), result.is_ok());
    if reading.check_error().is_none() {
        assert_eq!((count, table.raw_bytes()), (accepted, &before[..]));
    }
}

// Whether an insert may leave these bytes, and return this.
fn is_framed_insert<const V: usize>(
    format: Format,
    [before, after]: [&[u8]; 2],
    (key, value): (&[u8], &[u8; V]),
    result: Result<Option<[u8; V]>, Error>,
) -> bool {
    let reading = Reading::new(format, before);
    let slots = reading.slots();
    // Of a slot whose control byte and mirror differ both are so: a search may read either.
    let is_open = |slot: usize| {
        reading.control(slot) >= 128 || slot < 16 && reading.control(slots + slot) >= 128
    };
    let is_taken = |slot: usize| {
        reading.control(slot) < 128 || slot < 16 && reading.control(slots + slot) < 128
    };
    match result {
        Ok(Some(former)) => (0..slots).any(|slot| {
            let place = reading.entry_at(slot) + format.key;
            reading.key(slot) == key
                && reading.value(slot) == former
                && after == [&before[..place], value, &before[place + V..]].concat()
        }),
        Ok(None) => {
            let written = |slot: &usize| Reading::new(format, after).key(*slot) == key;
            let mut places = (0..slots).filter(|slot| is_open(*slot)).filter(written);
            reading.count() < reading.maximum()
                && places.any(|slot| after == with_pair(&reading, slot, key, value))
        }
        Err(error) => {
            let is_refused = reading.count() >= reading.maximum() || (0..slots).all(is_taken);
            error == Error::Full && before == after && is_refused
        }
    }
}

// The bytes with a pair in a slot.
fn with_pair(reading: &Reading<'_>, slot: usize, key: &[u8], value: &[u8]) -> Vec<u8> {
    let mut bytes = reading.bytes.to_vec();
    let (entry, control) = (reading.entry_at(slot), reading.control_at(slot));
    bytes[entry..][..key.len()].copy_from_slice(key);
    bytes[entry + key.len()..][..value.len()].copy_from_slice(value);
    let tag = reading.format.tag_of(key);
    bytes[control] = tag;
    if slot < 16 {
        bytes[control + reading.slots()] = tag;
    }
    bytes[8..16].copy_from_slice(&(reading.count() as u64 + 1).to_le_bytes());
    bytes
}

// The length of the grown table is that of the least slots for twice the stated items; the grown table states the same
// items and load factor, and is opened by its header.
fn grows<const K: usize, const V: usize, H: Named>(
    view: &View<'_, K, V, H>,
    reading: &Reading<'_>,
) {
    let items = (2 * reading.count() as u128).max(1);
    let is_enough = |slots: &u128| slots * reading.factor() >= 65536 * items;
    let slots = (4..64).map(|power| 1_u128 << power).find(is_enough);
    let length = slots.map(|slots| reading.format.table_len(slots));
    let length = length.filter(|it| *it <= usize::MAX as u128 && items <= usize::MAX as u128);
    assert_eq!(view.grown_len().map(|it| it as u128), length);
    let Some(length) = view.grown_len().filter(|it| *it < 1 << 16) else {
        return;
    };
    let mut grown = [0x5a].repeat(length);
    view.grow_into(&mut grown);
    let grown = Reading::new(reading.format, &grown);
    assert_eq!(grown.header_error(), None);
    assert_eq!((grown.count(), grown.factor()), (reading.count(), reading.factor()));
    assert!(grown.occupied().all(|slot| {
        reading.occupied().any(|old| {
            (reading.key(old), reading.value(old)) == (grown.key(slot), grown.value(slot))
        })
    }));
}
