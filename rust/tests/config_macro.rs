//! Configurations that the macro writes: their bytes, worked out by hand, beside those that are written out, and what
//! is read of any bytes.

use odht::{check_all, configs, Config, Fixed, HashFn, HashTable, HashTableOwned};

mod inner {
    /// The first byte, in all of the hash.
    #[derive(PartialEq, Eq)]
    pub struct First;

    impl odht::HashFn for First {
        fn hash(bytes: &[u8]) -> u32 {
            u32::from(bytes[0]) * 0x0101_0101
        }
    }
}

#[derive(Clone, PartialEq, Debug)]
struct Span {
    offset: u64,
    length: u16,
    flags: [bool; 2],
}

odht::fields! { Span { offset: u64, length: u16, flags: [bool; 2] } }

odht::config! { One: u64 => u32, by Fx }

odht::config! {
    /// With a text.
    pub Hashes: [u8; 16] => u64, by UnHash;
    Set: u64 => (), by Fx;
    Spans: (u16, u8) => Span, by inner::First;
    pub(crate) Deep: ([u16; 2], (i8, bool)) => (u128, f32, [[i32; 1]; 2]), by Fx
}

fn stored<T: Fixed>(value: &T) -> Vec<u8> {
    let mut bytes = vec![0xaa; T::LEN];
    value.write(&mut bytes);
    bytes
}

#[test]
fn bytes_of_types() {
    assert_eq!(stored(&0x0102_u16), [2, 1]);
    assert_eq!(stored(&-2_i32), [0xfe, 0xff, 0xff, 0xff]);
    assert_eq!(stored(&1.0_f32), [0, 0, 0x80, 0x3f]);
    assert_eq!(stored(&[0x0102_u16, 3]), [2, 1, 3, 0]);
    assert_eq!(stored(&(0x0102_u16, 3_u8, [true, false], 0x04_u32)), [2, 1, 3, 1, 0, 4, 0, 0, 0]);
    assert_eq!((stored(&()), stored(&[0_u8; 0])), (vec![], vec![]));
    assert_eq!(
        stored(&((1_u8, 2_u8), (3_u8,), (4_u8, 5_u8, (), 6_u8, 7_u8))),
        [1, 2, 3, 4, 5, 6, 7]
    );
    assert_eq!(stored(&(1_u8, 2_u8, 3_u8, 4_u8, 5_u8, 0x0106_u16)), [1, 2, 3, 4, 5, 6, 1]);
    let span = Span { offset: 0x0807_0605_0403_0201, length: 0x0a09, flags: [false, true] };
    assert_eq!(stored(&span), [1, 2, 3, 4, 5, 6, 7, 8, 9, 10, 0, 1]);
    assert_eq!(Span::read(&[1, 2, 3, 4, 5, 6, 7, 8, 9, 10, 0, 200]), span);
    assert_eq!(<(u16, u8)>::read(&[2, 1, 3]), (0x0102, 3));
    assert_eq!(<[u16; 2]>::read(&[2, 1, 3, 0]), [0x0102, 3]);
    assert_eq!(u128::read(&[255; 16]), u128::MAX);
}

// Key (0x0102, 3) has the bytes 2, 1, 3, so the hash 0x02020202: slot 2, and tag 1. The entry has 3 and 12 bytes.
#[test]
fn bytes_of_a_table() {
    let span = Span { offset: 5, length: 6, flags: [true, false] };
    let table = HashTableOwned::<Spans>::from([((0x0102, 3), span.clone())]);
    let bytes = table.raw_bytes();
    assert_eq!((bytes.len(), &bytes[4..8]), (32 + 16 * 15 + 32, &[1, 3, 12, 32][..]));
    assert_eq!(bytes[32 + 30..][..15], [2, 1, 3, 5, 0, 0, 0, 0, 0, 0, 0, 6, 0, 1, 0]);
    assert_eq!((bytes[32 + 240 + 2], bytes[32 + 240 + 16 + 2]), (1, 1));
    assert_eq!(check_all::<Spans>(bytes), Ok(()));
    let view = HashTable::<Spans, _>::try_from_raw_bytes(bytes).unwrap();
    assert_eq!((view.get(&(0x0102, 3)), view.get(&(0x0102, 4))), (Some(span), None));
    assert_eq!(inner::First::hash(&[2, 1, 3]), 0x0202_0202);
}

#[test]
fn as_those_that_are_ready() {
    fn same<A: Config, B: Config>(a: Vec<(A::Key, A::Value)>, b: Vec<(B::Key, B::Value)>) {
        let (a, b) =
            (HashTableOwned::<A>::from_iterator(a, 87), HashTableOwned::<B>::from_iterator(b, 87));
        assert_eq!(a.raw_bytes(), b.raw_bytes());
    }
    let pairs: Vec<(u64, u32)> = (0..100).map(|key| (key * 77, key as u32)).collect();
    same::<One, configs::U64ToU32>(pairs.clone(), pairs);
    let set: Vec<(u64, ())> = (0..100).map(|key| (key * 77, ())).collect();
    same::<Set, configs::U64Set>(set.clone(), set);
    let hashes: Vec<([u8; 16], u64)> = (0..100).map(|key| ([key as u8; 16], key)).collect();
    same::<Hashes, configs::Bytes16ToU64>(hashes.clone(), hashes);
}

#[test]
fn members_of_members() {
    let key = ([1, 2], (-1, true));
    let value = (u128::MAX - 1, 0.5, [[-5], [6]]);
    let mut table = HashTableOwned::<Deep>::new();
    assert_eq!(table.insert(&key, &value), None);
    assert_eq!(table.get(&key), Some(value));
    assert_eq!(table.raw_bytes()[5..7], [6, 28]);
    assert_eq!(format!("{One:?} {Hashes:?}"), "One Hashes");
}
