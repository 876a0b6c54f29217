//! What a user of the crate sees beside answers and bytes: the panics that are stated, traits of the types, what may
//! hold the bytes, and errors.

use crate::common::outcomes::outcome;
use crate::common::worked::{changed, three_pairs};
use odht::configs::{DirectU32ToU32, U64ToU32};
use odht::dynamic::{DynTable, Layout};
use odht::{bytes_needed, try_bytes_needed, Config, Error, FxHashFn, HashFn};
use odht::{HashTable, HashTableOwned, Iter, Part, UnHashFn};
use std::borrow::{Borrow, Cow};
use std::rc::Rc;
use std::sync::Arc;

type Owned = HashTableOwned<U64ToU32>;
type View<D> = HashTable<U64ToU32, D>;
type Dyn = DynTable<FxHashFn, Vec<u8>>;

// The words of the panic of a call, which has to panic.
fn words<T>(call: impl FnOnce() -> T) -> String {
    outcome(call).err().expect("a panic")
}

#[test]
fn percentages_are_from_1_to_100() {
    for percent in [0, 101, 201, 255] {
        let stated = format!("a load factor is from 1 to 100 percent, and not {percent}");
        assert_eq!(words(|| Owned::with_capacity(3, percent)), stated);
        assert_eq!(words(|| Owned::try_with_capacity(3, percent)), stated);
        assert_eq!(words(|| Owned::from_iterator([(1, 2)], percent)), stated);
        assert_eq!(words(|| Owned::try_from_iterator([(1, 2)], percent)), stated);
        assert_eq!(words(|| bytes_needed::<U64ToU32>(3, percent)), stated);
        assert_eq!(words(|| try_bytes_needed::<U64ToU32>(3, percent)), stated);
        assert_eq!(words(|| View::init_in_place(vec![0; 256], 3, percent)), stated);
        assert_eq!(words(|| View::try_init_in_place(vec![0; 256], 3, percent)), stated);
        let layout = Layout::of::<U64ToU32>();
        assert_eq!(words(|| layout.bytes_needed(3, percent)), stated);
        assert_eq!(words(|| Dyn::init_in_place(layout, vec![0; 256], 3, percent)), stated);
    }
}

#[test]
fn slices_are_as_long_as_they_have_to_be() {
    let table = Owned::from_iterator([(1, 2), (3, 4)], 95);
    let view = View::from_raw_bytes(table.raw_bytes()).unwrap();
    for length in [0, 1, 3] {
        let mut values = vec![None; length];
        assert!(words(|| table.get_all(&[1, 3], &mut values)).contains("a value for each key"));
        assert!(words(|| view.get_all(&[1, 3], &mut values)).contains("a value for each key"));
        let mut order = vec![0; length];
        assert!(words(|| table.insert_order(&mut order)).contains("a number for each item"));
        let end = words(|| table.insert_order_with(&mut order, &mut [0; 48]));
        assert!(end.contains("a number for each item"));
    }
    let sized = Dyn::open_as_stated(table.raw_bytes().to_vec()).unwrap();
    for length in [0, 1, 3] {
        let mut order = vec![0; length];
        assert!(words(|| sized.insert_order(&mut order)).contains("a number for each item"));
        let end = words(|| sized.insert_order_with(&mut order, &mut [0; 48]));
        assert!(end.contains("a number for each item"));
    }
    let counted = changed(table.raw_bytes(), &[(8, 1)]);
    let counted = Dyn::open_as_stated(counted).unwrap();
    assert!(words(|| counted.insert_order(&mut [0])).contains("that of the occupied slots"));
    let length = view.grown_len().unwrap();
    for length in [0, length - 1, length + 1, 2 * length] {
        let mut out = vec![0; length];
        assert!(words(|| view.grow_into(&mut out)).contains("as long as the grown table"));
        assert!(words(|| sized.grow_into(&mut out)).contains("as long as the grown table"));
        assert!(out.iter().all(|byte| *byte == 0));
    }
    // At a load factor of 0 no table is large enough.
    let bytes = changed(&three_pairs(), &[(28, 0), (29, 0)]);
    let view = View::from_raw_bytes(bytes).unwrap();
    assert_eq!(view.grown_len(), None);
    assert!(words(|| view.grow_into(&mut [])).contains("as long as the grown table"));
}

#[test]
fn a_hash_needs_its_bytes() {
    for length in 0..4 {
        let bytes = &[7; 4][..length];
        assert_eq!(words(|| UnHashFn::hash(bytes)), "UnHashFn needs four bytes");
    }
    assert_eq!(UnHashFn::hash(&[9, 1, 2, 3, 4]), 0x0403_0201);
    assert_eq!((UnHashFn::MIN_LEN, FxHashFn::MIN_LEN, FxHashFn::hash(&[])), (4, 0, 0));
}

#[test]
fn tables_that_are_too_large() {
    let stated = "Capacity is too large";
    assert_eq!(words(|| bytes_needed::<U64ToU32>(usize::MAX, 87)), stated);
    assert_eq!(words(|| Owned::with_capacity(1 << 62, 87)), stated);
    assert_eq!(Owned::try_with_capacity(1 << 62, 87).err(), Some(Error::Capacity));
    let made = View::init_in_place(vec![0; 256], 1 << 62, 87);
    assert_eq!(made.unwrap_err().downcast_ref(), Some(&Error::Capacity));
    // It has a length, but no memory has as many bytes.
    assert_eq!(Owned::try_with_capacity(1 << 58, 87).err(), Some(Error::Memory));
}

#[test]
fn a_full_view_panics_and_changes_nothing() {
    let items: Vec<(u32, u32)> = (0..20).map(|key| (key, key)).collect();
    let bytes = vec![0; bytes_needed::<DirectU32ToU32>(13, 87)];
    let mut view = HashTable::<DirectU32ToU32, _>::init_in_place(bytes, 13, 87).unwrap();
    assert_eq!(words(|| view.insert_all(&items)), "Table is full");
    assert_eq!(view.len(), 13);
    let before = view.raw_bytes().to_vec();
    assert_eq!(words(|| view.insert(&13, &1)), "Table is full");
    assert_eq!(view.raw_bytes(), before);
}

fn may_go_to_threads<T: Send + Sync>() {}

#[test]
fn types_have_their_traits() {
    // A configuration that is itself of one thread.
    struct Local(#[allow(dead_code)] Rc<u8>);
    impl Config for Local {
        type Key = u8;
        type Value = ();
        type EncodedKey = [u8; 1];
        type EncodedValue = [u8; 0];
        type H = odht::FxHashFn;
        fn encode_key(key: &u8) -> [u8; 1] {
            [*key]
        }
        fn encode_value((): &()) -> [u8; 0] {
            []
        }
        fn decode_key(key: &[u8; 1]) -> u8 {
            key[0]
        }
        fn decode_value(_: &[u8; 0]) {}
    }
    may_go_to_threads::<HashTableOwned<Local>>();
    may_go_to_threads::<HashTable<Local, &[u8]>>();
    may_go_to_threads::<Iter<'_, Local>>();
    may_go_to_threads::<Error>();
    let table = HashTableOwned::<Local>::from_iterator([(1, ()), (2, ())], 87);
    let copy = table.clone();
    let view = HashTable::<Local, _>::from_raw_bytes(copy.raw_bytes()).unwrap();
    let (first, second) = (view, view);
    assert_eq!((first.len(), second.clone().len(), table.get(&2)), (2, 2, Some(())));
    assert!(first.iter().eq(&table) && format!("{table:?}") == format!("{copy:?}"));
}

#[test]
fn anything_that_borrows_bytes_holds_a_table() {
    fn opens<D: Borrow<[u8]>>(data: D) {
        let table = View::from_raw_bytes(data).unwrap();
        assert_eq!((table.get(&3), table.len(), table.is_empty()), (Some(4), 3, false));
        assert_eq!(table.into_data().borrow(), three_pairs());
    }
    let bytes = three_pairs();
    opens(&bytes[..]);
    opens(bytes.clone());
    opens(bytes.clone().into_boxed_slice());
    opens(<[u8; 256]>::try_from(&bytes[..]).unwrap());
    opens(Rc::<[u8]>::from(&bytes[..]));
    opens(Arc::<[u8]>::from(&bytes[..]));
    opens(Cow::Borrowed(&bytes[..]));
    opens(&mut bytes.clone()[..]);
}

#[test]
fn threads_read_one_table() {
    let table = Owned::from_iterator((0..10_000).map(|key| (key, key as u32 ^ 0xabcd)), 87);
    let view = View::from_raw_bytes(table.raw_bytes()).unwrap();
    std::thread::scope(|threads| {
        for first in 0..3 {
            threads.spawn(move || {
                for key in (first..20_000).step_by(3) {
                    assert_eq!(view.get(&key), (key < 10_000).then_some(key as u32 ^ 0xabcd));
                }
            });
        }
    });
}

#[test]
fn errors_have_fields_and_texts() {
    let error = View::from_raw_bytes(changed(&three_pairs(), &[(6, 8)])).unwrap_err();
    let expected = Error::WrongSizeOf { part: Part::EncodedValue, expected: 4, found: 8 };
    assert_eq!(error.downcast_ref(), Some(&expected));
    assert_eq!(
        error.to_string(),
        "Expected size of Config::EncodedValue to be 4 but the encoded table specifies 8. \
         This indicates an encoding mismatch."
    );
    let error = Owned::from_raw_bytes(&changed(&three_pairs(), &[(245, 255)])).unwrap_err();
    assert_eq!(error.downcast_ref(), Some(&Error::MirrorMismatch { index: 5 }));
    let error = View::from_raw_bytes(changed(&three_pairs(), &[(92, 3)])).unwrap_err();
    let expected = Error::ControlMismatch { slot: 5, expected: 58, found: 19 };
    assert_eq!(error.downcast_ref(), Some(&expected));
    assert_eq!(Error::Memory.to_string(), "Memory was refused");
    fn is_an_error(_: impl std::error::Error + Send + Sync + 'static) {}
    is_an_error(expected);
}
