//! The bytes of types of the standard library and of structs that `fields!` makes `Fixed`, worked out by hand, and
//! what is read of bytes that no value has.

use odht::{configs, Config, Fixed, HashTable, HashTableOwned};
use std::net::{Ipv4Addr, Ipv6Addr};
use std::num::{NonZeroI128, NonZeroI16, NonZeroI32, NonZeroI64, NonZeroI8};
use std::num::{NonZeroU128, NonZeroU16, NonZeroU32, NonZeroU64, NonZeroU8};

fn stored<T: Fixed>(value: &T) -> Vec<u8> {
    let mut bytes = vec![0xaa; T::LEN];
    value.write(&mut bytes);
    bytes
}

// A value has these bytes, and is read of them.
fn is_stored_as<T: Fixed + PartialEq + std::fmt::Debug>(value: T, bytes: &[u8]) {
    assert_eq!((stored(&value), T::LEN), (bytes.to_vec(), bytes.len()));
    assert_eq!(T::read(bytes), value);
}

#[test]
fn characters() {
    is_stored_as('a', &[0x61, 0, 0, 0]);
    is_stored_as('\u{20ac}', &[0xac, 0x20, 0, 0]);
    is_stored_as('\u{10ffff}', &[0xff, 0xff, 0x10, 0]);
    is_stored_as('\0', &[0; 4]);
    // surrogates, the first number behind the last character, and the largest number
    for number in [0xd800_u32, 0xdfff, 0x11_0000, u32::MAX] {
        assert_eq!(char::read(&number.to_le_bytes()), '\u{fffd}');
    }
    assert_eq!(
        (char::read(&[0xff, 0xd7, 0, 0]), char::read(&[0, 0xe0, 0, 0])),
        ('\u{d7ff}', '\u{e000}')
    );
}

#[test]
fn values_that_may_be_missing() {
    is_stored_as(Some(0x0102_u16), &[1, 2, 1]);
    is_stored_as(Some(0_u16), &[1, 0, 0]);
    is_stored_as(None::<u16>, &[0, 0, 0]);
    is_stored_as(Some(Some(true)), &[1, 1, 1]);
    is_stored_as(Some(None::<bool>), &[1, 0, 0]);
    is_stored_as(None::<()>, &[0]);
    is_stored_as([Some('b'), None], &[1, 0x62, 0, 0, 0, 0, 0, 0, 0, 0]);
    assert_eq!((Option::<u8>::read(&[0, 7]), Option::<u8>::read(&[200, 7])), (None, Some(7)));
    assert_eq!(Option::<NonZeroU8>::read(&[1, 0]), NonZeroU8::new(1));
}

macro_rules! numbers_without_zero {
    ($($name:ident $number:ty;)*) => { $(
        let len = std::mem::size_of::<$number>();
        is_stored_as($name::new(<$number>::MAX).unwrap(), &<$number>::MAX.to_le_bytes());
        is_stored_as($name::new(7).unwrap(), &[&[7], &[0; 15][..len - 1]].concat());
        assert_eq!($name::read(&[0; 16][..len]).get(), 1);
    )* };
}

#[test]
fn numbers_that_are_not_zero() {
    numbers_without_zero! {
        NonZeroU8 u8; NonZeroU16 u16; NonZeroU32 u32; NonZeroU64 u64; NonZeroU128 u128;
        NonZeroI8 i8; NonZeroI16 i16; NonZeroI32 i32; NonZeroI64 i64; NonZeroI128 i128;
    }
    is_stored_as(NonZeroI16::new(-2).unwrap(), &[0xfe, 0xff]);
}

#[test]
fn addresses() {
    is_stored_as("192.0.2.7".parse::<Ipv4Addr>().unwrap(), &[192, 0, 2, 7]);
    let bytes = [0x20, 1, 0x0d, 0xb8, 0, 0, 0, 0, 0, 0, 0, 0, 0, 0, 0, 1];
    is_stored_as("2001:db8::1".parse::<Ipv6Addr>().unwrap(), &bytes);
}

#[derive(Clone, Copy, PartialEq, Debug)]
struct Metres(f32);

#[derive(Clone, PartialEq, Debug)]
struct Three(u16, [u8; 2], Option<bool>);

#[derive(Clone, PartialEq, Debug)]
struct Many(u8, u8, u8, u8, u8, u8, u8, u8, u8, u8, u8, u8, u8, u8, u8, u16);

#[derive(Clone, PartialEq, Debug)]
struct Pair<A, B>(A, B);

#[derive(Clone, PartialEq, Debug)]
struct Range<T> {
    begin: T,
    end: T,
}

#[derive(Clone, PartialEq, Debug)]
struct Named<const N: usize, T, const M: usize> {
    name: [u8; N],
    parts: [T; M],
}

odht::fields! { Metres(f32) }
odht::fields! { Three(u16, [u8; 2], Option<bool>,) }
odht::fields! { Many(u8, u8, u8, u8, u8, u8, u8, u8, u8, u8, u8, u8, u8, u8, u8, u16) }
odht::fields! { Pair<A, B>(A, B) }
odht::fields! { Range<T> { begin: T, end: T, } }
odht::fields! { Named<const N: usize, T, const M: usize> { name: [u8; N], parts: [T; M] } }

#[test]
fn structs_with_fields_that_have_no_names() {
    is_stored_as(Metres(1.0), &[0, 0, 0x80, 0x3f]);
    is_stored_as(Three(0x0102, [3, 4], Some(true)), &[2, 1, 3, 4, 1, 1]);
    let bytes = [1, 2, 3, 4, 5, 6, 7, 8, 9, 10, 11, 12, 13, 14, 15, 0x10, 0x11];
    is_stored_as(Many(1, 2, 3, 4, 5, 6, 7, 8, 9, 10, 11, 12, 13, 14, 15, 0x1110), &bytes);
}

#[test]
fn generic_structs() {
    is_stored_as(Pair(7_u8, 0x0102_u16), &[7, 2, 1]);
    is_stored_as(Pair(Metres(1.0), Pair(true, ())), &[0, 0, 0x80, 0x3f, 1]);
    is_stored_as(Range { begin: 0x0102_u16, end: 3 }, &[2, 1, 3, 0]);
    is_stored_as(Named { name: *b"ab", parts: [1_u16, 2, 3] }, &[0x61, 0x62, 1, 0, 2, 0, 3, 0]);
}

odht::config! { Lengths: Range<u32> => Metres, by FxHashFn }

odht::config! {
    Hosts: Ipv4Addr => Option<NonZeroU16>, by UnHashFn;
    FullFx: u64 => u32, by FxHashFn;
    FullUn: [u8; 8] => u32, by UnHashFn;
    ByPath: u64 => u32, by odht::FxHashFn;
}

// The hash of an address is its four bytes, the first one lowest: 2.0.0.192 has the home 2, and the tag 192 / 2.
#[test]
fn keys_and_values_of_these_types() {
    let port = NonZeroU16::new(0x0102);
    let mut hosts = HashTableOwned::<Hosts>::from([(Ipv4Addr::new(2, 0, 0, 192), port)]);
    let bytes = hosts.raw_bytes();
    assert_eq!(bytes[4..7], [1, 4, 3]);
    assert_eq!(bytes[32 + 2 * 7..][..7], [2, 0, 0, 192, 1, 2, 1]);
    assert_eq!(bytes[32 + 16 * 7 + 2], 96);
    assert_eq!(hosts.get(&Ipv4Addr::new(2, 0, 0, 192)), Some(port));
    assert_eq!(hosts.insert(&Ipv4Addr::LOCALHOST, &None), None);
    assert_eq!(hosts.get(&Ipv4Addr::LOCALHOST), Some(None));
    let range = Range { begin: 1, end: 9 };
    let lengths = HashTableOwned::<Lengths>::from([(range.clone(), Metres(0.5))]);
    let view = HashTable::<Lengths, _>::try_from_raw_bytes(lengths.raw_bytes()).unwrap();
    assert_eq!(view.get(&range), Some(Metres(0.5)));
}

#[test]
fn the_names_of_hash_functions_mean_the_same() {
    fn bytes<C: Config<Key = K, Value = u32>, K>(key: impl Fn(u64) -> K) -> Vec<u8> {
        (0..100).map(|n| (key(n * 77), n as u32)).collect::<HashTableOwned<C>>().into()
    }
    let number = |n: u64| n;
    let fx = bytes::<configs::U64ToU32, _>(number);
    assert_eq!((bytes::<FullFx, _>(number), bytes::<ByPath, _>(number)), (fx.clone(), fx));
    let hash = |n: u64| n.rotate_left(40).to_le_bytes();
    assert_eq!(bytes::<FullUn, _>(hash), bytes::<configs::Bytes8ToU32, _>(hash));
}
