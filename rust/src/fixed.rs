//! Types that are encoded to a fixed number of bytes, and configurations of them in a line.

mod fields;
mod others;

/// A type whose values are all encoded to the same number of bytes. [`config!`] takes such types as
/// keys and values.
///
/// These types are `Fixed`. Any bytes must decode to a value, since a table may come from an
/// untrusted source. The last column lists how bytes are decoded to which no value is encoded.
///
/// | types | bytes | other bytes |
/// |---|---|---|
/// | numbers from 8 to 128 bits | little-endian | none |
/// | `bool` | 0 or 1 | every byte except 0 is `true` |
/// | `char` | its number, as a `u32` | U+FFFD, the replacement character |
/// | `NonZero` numbers of these types | like the number | 0 is read as 1 |
/// | `Option<T>` | 1, then the bytes of the value; for `None` zeros | a first byte other than 0 means `Some` |
/// | `Ipv4Addr`, `Ipv6Addr` | the 4 or 16 bytes as the address is written | none |
/// | arrays, and tuples of up to six | their members one after the other, without padding | as of the members |
///
/// [`fields!`] implements the trait for a struct. For any other type, implement it by hand:
///
/// ```
/// use odht::{Fixed, HashTableOwned};
///
/// #[derive(Clone, Copy, PartialEq, Debug)]
/// enum Kind {
///     Function,
///     Data,
/// }
///
/// impl Fixed for Kind {
///     const LEN: usize = 1;
///
///     fn write(&self, to: &mut [u8]) {
///         to[0] = *self as u8;
///     }
///     // any byte must decode, since a table may come from an untrusted source
///     fn read(from: &[u8]) -> Self {
///         [Kind::Function, Kind::Data][usize::from(from[0] & 1)]
///     }
/// }
///
/// odht::config! { Kinds: u64 => Kind, by Fx }
///
/// let kinds = HashTableOwned::<Kinds>::from([(7, Kind::Data)]);
/// assert_eq!(kinds.get(&7), Some(Kind::Data));
/// ```
///
/// [`config!`]: crate::config!
/// [`fields!`]: crate::fields!
pub trait Fixed: Sized {
    /// The length of an encoded value, in bytes.
    const LEN: usize;

    /// Encodes the value to `to`, which has [`LEN`](Fixed::LEN) bytes.
    fn write(&self, to: &mut [u8]);

    /// Decodes a value from `from`, which has [`LEN`](Fixed::LEN) bytes. It must return a value for
    /// any bytes.
    #[must_use]
    fn read(from: &[u8]) -> Self;
}

macro_rules! numbers {
    ($($number:ty)*) => { $(
        impl Fixed for $number {
            const LEN: usize = std::mem::size_of::<$number>();

            #[inline(always)]
            fn write(&self, to: &mut [u8]) {
                to.copy_from_slice(&self.to_le_bytes());
            }

            #[inline(always)]
            fn read(from: &[u8]) -> Self {
                let mut bytes = [0; Self::LEN];
                bytes.copy_from_slice(from);
                Self::from_le_bytes(bytes)
            }
        }
    )* };
}

numbers!(u8 u16 u32 u64 u128 i8 i16 i32 i64 i128 f32 f64);

impl Fixed for bool {
    const LEN: usize = 1;

    #[inline(always)]
    fn write(&self, to: &mut [u8]) {
        to[0] = u8::from(*self);
    }

    /// Every byte except 0 is `true`.
    #[inline(always)]
    fn read(from: &[u8]) -> Self {
        from[0] != 0
    }
}

impl<T: Fixed, const N: usize> Fixed for [T; N] {
    const LEN: usize = N * T::LEN;

    #[inline(always)]
    fn write(&self, to: &mut [u8]) {
        for (at, member) in self.iter().enumerate() {
            member.write(&mut to[at * T::LEN..(at + 1) * T::LEN]);
        }
    }

    #[inline(always)]
    fn read(from: &[u8]) -> Self {
        std::array::from_fn(|at| T::read(&from[at * T::LEN..(at + 1) * T::LEN]))
    }
}

macro_rules! tuples {
    ($(($($member:ident $at:tt),*))*) => { $(
        impl<$($member: Fixed),*> Fixed for ($($member,)*) {
            const LEN: usize = 0 $(+ $member::LEN)*;

            #[inline(always)]
            #[allow(unused_variables, unused_mut, unused_assignments)]
            fn write(&self, mut to: &mut [u8]) {
                $(
                    let (own, rest) = to.split_at_mut($member::LEN);
                    self.$at.write(own);
                    to = rest;
                )*
            }

            #[inline(always)]
            #[allow(unused_variables, unused_mut, unused_assignments, clippy::unused_unit)]
            fn read(mut from: &[u8]) -> Self {
                ($({
                    let (own, rest) = from.split_at($member::LEN);
                    from = rest;
                    $member::read(own)
                },)*)
            }
        }
    )* };
}

tuples! {
    ()
    (A 0)
    (A 0, B 1)
    (A 0, B 1, C 2)
    (A 0, B 1, C 2, D 3)
    (A 0, B 1, C 2, D 3, E 4)
    (A 0, B 1, C 2, D 3, E 4, F 5)
}

/// Defines configurations. Each consists of a name, the type of keys, the type of values, and the
/// hash function of keys. Keys and values may have any type that is [`Fixed`](crate::Fixed):
/// numbers, arrays and tuples of them, and structs with [`fields!`](crate::fields!). An encoded key
/// or value has at most 255 bytes.
///
/// The hash function must fit the keys. Otherwise many keys have the same hash, and searches become
/// a hundred times longer:
///
/// | keys | hash function |
/// |---|---|
/// | numbers that count up | `by Fx` |
/// | addresses and offsets | `by Fx`, after you shift out the bits that are always zero |
/// | hashes, evenly spread in their last four bytes | `by UnHash` |
/// | text, tuples, floats, big-endian numbers | `by Xxh64` |
/// | anything else, or if you do not know | `by Xxh64` |
///
/// - [`FxHashFn`](crate::FxHashFn) ignores the high 32 bits of the last eight bytes of a key, such as those of a number
///   of 64 bits. Keys that differ only in these have one hash.
/// - [`UnHashFn`](crate::UnHashFn) takes the last four bytes of a key as its hash.
/// - [`Xxh64HashFn`](crate::Xxh64HashFn) uses all bits. It is the low half of XXH64, which
///   libraries in other languages provide too.
/// - Instead of `by Fx` you can write `by FxHashFn`, the name of the type. `by UnHashFn` and `by
///   Xxh64HashFn` work in the same way.
/// - To use a [`HashFn`](crate::HashFn) of your own, write its path. If its name is one of these,
///   write a longer path, such as `by self::FxHashFn`.
///
/// ```
/// odht::config! { Names: [u8; 32] => u64, by Xxh64 }
///
/// odht::config! {
///     /// From a place in a file to the line and the column of its source.
///     pub Lines: (u32, u64) => (u32, u16), by Xxh64;
///
///     /// From the hash of a name to where its text begins and ends.
///     pub Texts: u128 => [u64; 2], by UnHash;
/// }
///
/// let mut lines = odht::HashTableOwned::<Lines>::new();
/// lines.insert(&(1, 4096), &(20, 7));
/// assert_eq!(lines.get(&(1, 4096)), Some((20, 7)));
/// ```
///
/// `String` is not `Fixed`, since its length varies. Store a short text as an array, filled up with
/// zeros. For a text that may be longer, store its hash, as the example `names` does.
///
/// ```
/// odht::config! { Names: [u8; 16] => u64, by Xxh64 }
///
/// fn name(text: &str) -> Option<[u8; 16]> {
///     let mut bytes = [0; 16];
///     bytes.get_mut(..text.len())?.copy_from_slice(text.as_bytes());
///     Some(bytes)
/// }
///
/// let mut names = odht::HashTableOwned::<Names>::new();
/// names.insert(&name("main").expect("a short name"), &4096);
/// assert_eq!(names.get(&name("main").unwrap()), Some(4096));
/// assert_eq!(name("a name of more than sixteen bytes"), None);
/// ```
#[macro_export]
macro_rules! config {
    ($(
        $(#[$attribute:meta])*
        $public:vis $name:ident : $key:ty => $value:ty, by $($hash:ident)::+
    );+ $(;)?) => { $(
        $(#[$attribute])*
        #[derive(Clone, Copy, PartialEq, Eq, Debug)]
        $public struct $name;

        impl $crate::Config for $name {
            type Key = $key;
            type Value = $value;
            type EncodedKey = [u8; <$key as $crate::Fixed>::LEN];
            type EncodedValue = [u8; <$value as $crate::Fixed>::LEN];
            type H = $crate::__hash_function!($($hash)::+);

            #[inline(always)]
            fn encode_key(k: &$key) -> Self::EncodedKey {
                let mut bytes = [0; <$key as $crate::Fixed>::LEN];
                $crate::Fixed::write(k, &mut bytes);
                bytes
            }

            #[inline(always)]
            fn encode_value(v: &$value) -> Self::EncodedValue {
                let mut bytes = [0; <$value as $crate::Fixed>::LEN];
                $crate::Fixed::write(v, &mut bytes);
                bytes
            }

            #[inline(always)]
            fn decode_key(k: &Self::EncodedKey) -> $key {
                <$key as $crate::Fixed>::read(k)
            }

            #[inline(always)]
            fn decode_value(v: &Self::EncodedValue) -> $value {
                <$value as $crate::Fixed>::read(v)
            }
        }
    )+ };
}

#[doc(hidden)]
#[macro_export]
macro_rules! __hash_function {
    (Fx) => { $crate::FxHashFn };
    (FxHashFn) => { $crate::FxHashFn };
    (UnHash) => { $crate::UnHashFn };
    (UnHashFn) => { $crate::UnHashFn };
    (Xxh64) => { $crate::Xxh64HashFn };
    (Xxh64HashFn) => { $crate::Xxh64HashFn };
    ($($other:ident)::+) => { $($other)::+ };
}
