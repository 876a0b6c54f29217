//! Each ready configuration: tables beside the standard library's map and beside the second writing of the tests, whose
//! bytes are the same; and what opens and is read where one byte after the other is changed, by the second reading.

use crate::common::frame::{format, Named};
use crate::common::random::Random;
use crate::common::reading::{Format, Reading};
use crate::common::writing::Writing;
use odht::dynamic::DynTable;
use odht::{check_all, check_all_within, Config, HashTable, HashTableOwned};
use std::collections::HashMap;
use std::fmt::Debug;
use std::hash::Hash;

/// Keys and values, as the format has their bytes: numbers with the lowest byte first, bytes as they are.
trait Item: Copy + Debug + Eq + Hash {
    fn some(random: &mut Random) -> Self;
    fn bytes(&self) -> Vec<u8>;
}

impl Item for () {
    fn some(_: &mut Random) {}
    fn bytes(&self) -> Vec<u8> {
        Vec::new()
    }
}

impl Item for u32 {
    fn some(random: &mut Random) -> u32 {
        random.number() as u32
    }
    fn bytes(&self) -> Vec<u8> {
        (0..4).map(|at| (self >> (8 * at)) as u8).collect()
    }
}

impl Item for u64 {
    fn some(random: &mut Random) -> u64 {
        random.number()
    }
    fn bytes(&self) -> Vec<u8> {
        (0..8).map(|at| (self >> (8 * at)) as u8).collect()
    }
}

impl<const N: usize> Item for [u8; N] {
    fn some(random: &mut Random) -> [u8; N] {
        random.array()
    }
    fn bytes(&self) -> Vec<u8> {
        self.to_vec()
    }
}

/// Inserts into a table that grows, of which one in three is of a former key. Then each lookup and the walk.
fn round_trip<C: Config>(format: Format)
where
    C::Key: Item,
    C::Value: Item,
{
    let mut random = Random(21);
    let mut table = HashTableOwned::<C>::with_capacity(0, 87);
    let mut written = Writing::new(format, 0, 87);
    let (mut map, mut keys) = (HashMap::new(), Vec::new());
    for _ in 0..300 {
        let again = !keys.is_empty() && random.comes(33);
        let key = if again { keys[random.below(keys.len())] } else { C::Key::some(&mut random) };
        let value = C::Value::some(&mut random);
        assert_eq!(table.insert(&key, &value), map.insert(key, value));
        written.insert(&key.bytes(), &value.bytes());
        keys.push(key);
    }
    assert!(table.raw_bytes() == written.bytes);
    let view = HashTable::<C, _>::from_raw_bytes(table.raw_bytes()).unwrap();
    assert_eq!((view.check_all(), view.len()), (Ok(()), map.len()));
    keys.extend((0..50).map(|_| C::Key::some(&mut random)));
    assert!(keys.iter().all(|key| view.get(key) == map.get(key).copied()));
    assert_eq!(view.iter().collect::<HashMap<_, _>>(), map);
    same_orders(&table, &written.reading());
}

/// The order of inserts of a table, and of its bytes with lengths that are numbers.
fn same_orders<C: Config>(table: &HashTableOwned<C>, reading: &Reading<'_>) {
    let twin = DynTable::<C::H, _>::open_as_stated(table.raw_bytes()).unwrap();
    let mut orders = [(); 4].map(|()| vec![usize::MAX; table.len()]);
    let mut scratch = vec![7; table.insert_order_scratch()];
    assert_eq!(twin.insert_order_scratch(), scratch.len());
    let [first, second, third, fourth] = &mut orders;
    assert!(table.insert_order(first) && table.insert_order_with(second, &mut scratch));
    assert!(twin.insert_order(third) && twin.insert_order_with(fourth, &mut scratch));
    assert!(reading.is_insert_order(&orders[0]));
    assert!(orders.iter().all(|order| *order == orders[0]));
}

/// What opens and is read of bytes of any kind is what the second reading says. An insert changes no more than an entry.
fn read_any<C: Config>(format: Format, bytes: &[u8], random: &mut Random)
where
    C::Key: Item,
    C::Value: Item,
{
    let reading = Reading::new(format, bytes);
    let text = |result: Result<(), odht::Error>| result.err().map(|error| error.to_string());
    let whole = reading.check_error();
    assert_eq!(text(check_all::<C>(bytes)), whole);
    for groups in [0, 1] {
        let within = check_all_within::<C>(bytes, groups);
        assert_eq!(text(within), reading.error_within(&whole, groups));
    }
    let view = HashTable::<C, _>::try_from_raw_bytes(bytes);
    assert_eq!(text(view.as_ref().map(|_| ()).map_err(|error| *error)), reading.open_error());
    let Ok(view) = view else { return };
    let stored: Vec<_> =
        reading.occupied().map(|slot| (reading.key(slot), reading.value(slot))).collect();
    let walked: Vec<_> = view.iter().map(|(key, value)| (key.bytes(), value.bytes())).collect();
    assert!(walked.iter().map(|(key, value)| (&key[..], &value[..])).eq(stored));
    for (key, _) in view.iter() {
        let found = view.get(&key).map(|value| value.bytes());
        let holds = |slot| {
            reading.key(slot) == key.bytes() && Some(reading.value(slot)) == found.as_deref()
        };
        assert!(found.is_none() || (0..reading.slots()).any(holds));
    }
    let mut copy = HashTable::<C, _>::try_from_raw_bytes(bytes.to_vec()).unwrap();
    let former = copy.try_insert(&C::Key::some(random), &C::Value::some(random));
    let changed = copy.raw_bytes().iter().zip(bytes).filter(|(new, old)| new != old).count();
    assert!(changed == 0 || former.is_ok() && changed <= format.key + format.value + 2 + 8);
}

/// A table of twelve items: each byte changed in turn, and some changed together.
fn changed_bytes<C: Config>(format: Format)
where
    C::Key: Item,
    C::Value: Item,
{
    let mut random = Random(22);
    let mut written = Writing::new(format, 12, 87);
    for _ in 0..12 {
        written.insert(&C::Key::some(&mut random).bytes(), &C::Value::some(&mut random).bytes());
    }
    read_any::<C>(format, &written.bytes, &mut random);
    for place in 0..written.bytes.len() {
        let mut bytes = written.bytes.clone();
        bytes[place] ^= 1 << random.below(8);
        read_any::<C>(format, &bytes, &mut random);
    }
    for _ in 0..500 {
        let mut bytes = written.bytes.clone();
        for _ in 0..1 + random.below(8) {
            let place = random.below(bytes.len());
            bytes[place] = random.byte();
        }
        read_any::<C>(format, &bytes, &mut random);
    }
}

/// The format of a configuration, from the lengths that the list has.
fn format_of<const K: usize, const V: usize, C: Config>() -> Format
where
    C::H: Named,
{
    format::<K, V, C::H>()
}

include!("../src/configs/generated/list.rs");

macro_rules! tests {
    ($(
        $name:ident: $key:ty => $value:ty, $key_len:literal, $value_len:literal, $hash:ty, $words:literal;
    )*) => { $(
        #[allow(non_snake_case)]
        mod $name {
            use odht::configs::$name as Shape;

            #[test]
            fn round_trip() {
                super::round_trip::<Shape>(super::format_of::<$key_len, $value_len, Shape>());
            }

            #[test]
            fn changed_bytes() {
                super::changed_bytes::<Shape>(super::format_of::<$key_len, $value_len, Shape>());
            }
        }
    )* };
}

each_configuration!(tests);
