//! What a map of the standard library has too: walks whose length is known, keys and values, collecting, giving up a
//! table for its pairs or its bytes. The pairs of `three_pairs` are (1, 2) in slot 5, (5, 6) in slot 9 and (3, 4) in
//! slot 15, as docs/FORMAT.md works them out.

use crate::common::worked::{changed, three_pairs};
use odht::configs::{DirectU32ToU32, U64Set, U64ToU32};
use odht::{Config, FxHashFn, HashTable, HashTableOwned, Iter};
use std::collections::{BTreeMap, HashMap};

type Owned = HashTableOwned<U64ToU32>;
type View<D> = HashTable<U64ToU32, D>;

fn view_of(bytes: &[u8]) -> View<&[u8]> {
    View::try_from_raw_bytes(bytes).unwrap()
}

#[test]
fn the_habits_of_a_map() {
    let mut ages: HashTableOwned<U64ToU32> = HashTableOwned::new();
    assert!(ages.is_empty());
    ages.insert(&7, &30);
    ages.insert(&8, &40);
    if let Some(age) = ages.get(&7) {
        ages.insert(&7, &(age + 1));
    }
    for (key, value) in &ages {
        assert_eq!(ages.get(&key), Some(value));
    }
    let mut keys: Vec<u64> = ages.keys().collect();
    keys.sort_unstable();
    assert_eq!((keys, ages.values().sum::<u32>()), (vec![7, 8], 71));
    let map: BTreeMap<u64, u32> = ages.clone().into_iter().collect();
    assert_eq!(map, BTreeMap::from([(7, 31), (8, 40)]));
    let again: Owned = map.into_iter().collect();
    assert_eq!((again.get(&7), again.get(&8), again.len()), (Some(31), Some(40), 2));
    assert!(again.capacity() >= again.len());
    let of_map: Owned = HashMap::from([(1, 2)]).into_iter().collect();
    assert_eq!(of_map.get(&1), Some(2));
    let set: HashTableOwned<U64Set> = [3, 4, 3].into_iter().map(|key| (key, ())).collect();
    assert_eq!((set.len(), set.contains_key(&3), set.contains_key(&5)), (2, true, false));
}

#[test]
fn walks_know_how_many_are_left() {
    let bytes = three_pairs();
    let view = view_of(&bytes);
    let owned = Owned::try_from_raw_bytes(&bytes).unwrap();
    for mut walk in [view.iter(), owned.iter(), (&view).into_iter(), (&owned).into_iter()] {
        for (left, pair) in [(3, (1, 2)), (2, (5, 6)), (1, (3, 4))] {
            assert_eq!((walk.len(), walk.size_hint()), (left, (left, Some(left))));
            assert_eq!((walk.clone().count(), walk.clone().len()), (left, left));
            assert_eq!(walk.clone().next(), Some(pair));
            assert_eq!(walk.next(), Some(pair));
        }
        assert_eq!((walk.len(), walk.next(), walk.len(), walk.next()), (0, None, 0, None));
    }
    for (from, left) in [(0, 3), (5, 3), (6, 2), (9, 2), (10, 1), (15, 1), (16, 0), (usize::MAX, 0)]
    {
        assert_eq!((view.iter_from(from).len(), owned.iter_from(from).count()), (left, left));
    }
    assert_eq!((Owned::new().iter().len(), Owned::new().into_iter().len()), (0, 0));
}

// The lengths are those of the walks, whatever the header counts, and where control bytes say what is not so.
#[test]
fn lengths_are_true_on_any_bytes() {
    let (items, twelfth) = (8, 32 + 16 * 12 + 12);
    for (changes, stated, there) in [
        (&[(items, 200)][..], 200, 3),
        (&[(items, 0)], 0, 3),
        (&[(items + 7, 255)], (255 << 56) + 3, 3),
        (&[(twelfth, 7)], 3, 4),
        (&[(twelfth, 127), (twelfth + 1, 128)], 3, 4),
    ] {
        let bytes = changed(&three_pairs(), changes);
        let view = view_of(&bytes);
        assert_eq!((view.len(), view.iter().len(), view.iter().count()), (stated, there, there));
        assert_eq!(view.iter().collect::<Vec<_>>().len(), there);
        assert_eq!(
            (view.keys().len(), view.values().len(), view.iter_from(0).len()),
            (there, there, there)
        );
        assert_eq!((view.into_iter().len(), view.into_iter().count()), (there, there));
    }
}

#[test]
fn lengths_of_larger_tables() {
    let table = Owned::from_iterator((0..1000).map(|key| (key * 7, key as u32)), 87);
    let (mut walk, mut given_up) = (table.iter(), table.clone().into_iter());
    for left in (0..=1000).rev() {
        assert_eq!(
            (walk.len(), given_up.len(), walk.clone().fold(0, |n, _| n + 1)),
            (left, left, left)
        );
        assert_eq!(walk.next(), given_up.next());
    }
}

// A configuration whose keys and values each say when they are decoded.
struct Decoded;

impl Config for Decoded {
    type Key = u8;
    type Value = u8;
    type EncodedKey = [u8; 1];
    type EncodedValue = [u8; 1];
    type H = FxHashFn;
    fn encode_key(key: &u8) -> [u8; 1] {
        [*key]
    }
    fn encode_value(value: &u8) -> [u8; 1] {
        [*value]
    }
    fn decode_key(key: &[u8; 1]) -> u8 {
        assert_ne!(key[0], 77, "a key was decoded");
        key[0]
    }
    fn decode_value(value: &[u8; 1]) -> u8 {
        assert_ne!(value[0], 77, "a value was decoded");
        value[0]
    }
}

#[test]
fn keys_and_values_in_slot_order() {
    let bytes = three_pairs();
    let (view, owned) = (view_of(&bytes), Owned::try_from_raw_bytes(&bytes).unwrap());
    for (mut keys, mut values) in [(view.keys(), view.values()), (owned.keys(), owned.values())] {
        assert_eq!(keys.next(), Some(1));
        assert_eq!(values.next(), Some(2));
        assert_eq!(keys.clone().collect::<Vec<_>>(), [5, 3]);
        assert_eq!(values.clone().collect::<Vec<_>>(), [6, 4]);
        assert_eq!((keys.len(), values.len()), (2, 2));
    }
    let table = HashTableOwned::<Decoded>::from([(1, 77)]);
    assert_eq!((table.keys().collect::<Vec<_>>(), table.iter().count()), (vec![1], 1));
    let table = HashTableOwned::<Decoded>::from([(77, 1)]);
    assert_eq!((table.values().collect::<Vec<_>>(), table.iter().count()), (vec![1], 1));
}

#[test]
fn a_table_is_given_up_for_its_pairs() {
    let bytes = three_pairs();
    let pairs = [(1, 2), (5, 6), (3, 4)];
    let owned = Owned::try_from_raw_bytes(&bytes).unwrap();
    assert_eq!(owned.into_iter().collect::<Vec<_>>(), pairs);
    assert_eq!(view_of(&bytes).into_iter().collect::<Vec<_>>(), pairs);
    let mut walk = View::try_from_raw_bytes(bytes).unwrap().into_iter();
    assert_eq!((walk.next(), walk.len()), (Some((1, 2)), 2));
    assert_eq!(walk.clone().collect::<Vec<_>>(), pairs[1..]);
    assert_eq!((walk.nth(1), walk.len(), walk.next(), walk.next()), (Some((3, 4)), 0, None, None));
}

#[test]
fn a_table_is_given_up_for_its_bytes() {
    let owned = Owned::try_from_raw_bytes(&three_pairs()).unwrap();
    let place = owned.raw_bytes().as_ptr();
    let bytes = owned.into_raw_bytes();
    assert_eq!((bytes.as_ptr(), &bytes[..]), (place, &three_pairs()[..]));
    let mut view = View::try_from_raw_bytes(bytes).unwrap();
    view.insert(&7, &8);
    let bytes = view.into_data();
    assert_eq!((bytes.as_ptr(), bytes[8]), (place, 4));
}

#[test]
fn bytes_by_reference() {
    fn length(bytes: impl AsRef<[u8]>) -> usize {
        bytes.as_ref().len()
    }
    let owned = Owned::try_from_raw_bytes(&three_pairs()).unwrap();
    assert_eq!((length(view_of(&three_pairs())), length(&owned), length(owned)), (256, 256, 256));
}

// 40 items at 87 percent need 64 slots; 32 + 64 * 12 + 64 + 16 = 880.
#[test]
fn tables_are_collected() {
    let pairs = || (1..=40).map(|key| (key, 10 * key as u32));
    let collected: Owned = pairs().collect();
    assert_eq!((collected.raw_bytes().len(), collected.len()), (880, 40));
    assert_eq!(collected.raw_bytes(), Owned::from_iterator(pairs(), 87).raw_bytes());
    assert_eq!((1..=40).map(|key| collected.get(&key).unwrap()).sum::<u32>(), 8200);
    let last: Owned = [(1, 2), (3, 4), (1, 5)].into();
    assert_eq!((last.len(), last.get(&1), last.raw_bytes().len()), (2, Some(5), 256));
    let none: Owned = std::iter::empty().collect();
    assert_eq!((none.len(), none.raw_bytes().len()), (0, 256));
    let (even, odd): (Vec<_>, Vec<_>) = pairs().partition(|(key, _)| key % 2 == 0);
    let both: Owned = even.into_iter().chain(odd).collect();
    assert_eq!((both.len(), both.get(&39)), (40, Some(390)));
}

// Of 16 slots 87 percent are 16 * 57015 / 65536 = 13.9, 95 percent 16 * 62258 / 65536 = 15.2, of 64 at 87 percent 55.7.
#[test]
fn capacities() {
    assert_eq!((Owned::new().capacity(), Owned::default().capacity()), (13, 13));
    assert_eq!(Owned::new().raw_bytes(), Owned::default().raw_bytes());
    assert_eq!(Owned::with_capacity(40, 87).capacity(), 55);
    let mut table = HashTableOwned::<DirectU32ToU32>::new();
    (0..13).for_each(|key| assert_eq!(table.insert(&key, &0), None));
    assert_eq!((table.len(), table.capacity(), table.raw_bytes().len()), (13, 13, 192));
    table.insert(&13, &0);
    assert_eq!((table.len(), table.capacity()), (14, 27));
    let bytes = three_pairs();
    assert_eq!(view_of(&bytes).capacity(), 15);
    for (low, high, capacity) in [(0, 0, 0), (255, 255, 15), (0, 128, 8), (255, 127, 7)] {
        assert_eq!(view_of(&changed(&bytes, &[(28, low), (29, high)])).capacity(), capacity);
    }
}

#[test]
fn a_dump_names_the_hash_as_its_users_do() {
    fn name<C: Config>() -> String {
        let text = format!("{:?}", HashTableOwned::<C>::new());
        let line = text.lines().nth(1).unwrap();
        line.strip_prefix("RawTable (slot_count=16, hash_fn=").unwrap().to_string()
    }
    assert_eq!(name::<U64ToU32>(), "odht::FxHashFn) {");
    assert_eq!(name::<DirectU32ToU32>(), "odht::UnHashFn) {");
    #[derive(PartialEq, Eq)]
    struct Mine;
    impl odht::HashFn for Mine {
        fn hash(bytes: &[u8]) -> u32 {
            bytes.len() as u32
        }
    }
    struct OfMine;
    impl Config for OfMine {
        type Key = u8;
        type Value = ();
        type EncodedKey = [u8; 1];
        type EncodedValue = [u8; 0];
        type H = Mine;
        fn encode_key(key: &u8) -> [u8; 1] {
            [*key]
        }
        fn encode_value((): &()) -> [u8; 0] {
            []
        }
        fn decode_key(key: &[u8; 1]) -> u8 {
            key[0]
        }
        fn decode_value(_: &[u8; 0]) {}
    }
    assert_eq!(name::<OfMine>(), format!("{}) {{", std::any::type_name::<Mine>()));
}

// With all variants named the last arm would be unreachable, and this file would not compile, if the enum were closed.
#[test]
#[deny(unreachable_patterns)]
#[allow(clippy::match_like_matches_macro)]
fn errors_may_come_to_the_enum() {
    use odht::Error::*;
    let is_known = match Owned::try_from_raw_bytes(&[]).unwrap_err() {
        TooShort { .. } | WrongTag { .. } | WrongVersion { .. } | WrongSizeOf { .. } => true,
        SlotCountNotPowerOfTwo { .. } | SlotCountTooSmall { .. } | WrongLength { .. } => true,
        NonZeroEmpty { .. } | ControlMismatch { .. } | LoadFactorTooSmall { .. } => true,
        NonZeroPadding { .. } | BadFreeControl { .. } | MirrorMismatch { .. } => true,
        WrongItemCount { .. } | TooManyItems { .. } | Unreachable { .. } => true,
        SearchTooLong { .. } | InitLength { .. } | Full | Memory | Capacity => true,
        _ => false,
    };
    assert!(is_known);
}

fn may_go_to_threads<T: Send + Sync>(_: &T) {}

#[test]
fn walks_go_to_threads() {
    let table = Owned::from([(1, 2)]);
    may_go_to_threads(&table.iter());
    may_go_to_threads(&table.keys());
    may_go_to_threads(&table.values());
    may_go_to_threads(&table.iter_from(0));
    fn all_of<'a>(table: &'a Owned) -> Iter<'a, U64ToU32> {
        table.into_iter()
    }
    assert_eq!(all_of(&table).next(), Some((1, 2)));
    assert_eq!(format!("{:?} {:?}", table.keys(), table.values()), "Keys { .. } Values { .. }");
    may_go_to_threads(&table.into_iter());
}
