//! The trait `Fixed` for structs, in a line.

/// Implements [`Fixed`](crate::Fixed) for a struct. Its bytes are those of the fields that you
/// list, in this order.
///
/// ```
/// #[derive(Clone, PartialEq, Debug)]
/// struct Span {
///     offset: u64,
///     length: u16,
/// }
///
/// odht::fields! { Span { offset: u64, length: u16 } }
/// odht::config! { Parts: u64 => Span, by Fx }
///
/// let parts = odht::HashTableOwned::<Parts>::from([(7, Span { offset: 4096, length: 30 })]);
/// assert_eq!(parts.get(&7), Some(Span { offset: 4096, length: 30 }));
/// assert_eq!(parts.raw_bytes()[5..7], [8, 10]); // the lengths of keys and of values
/// ```
///
/// For a tuple struct, list the types of its fields. For a generic struct, write its parameters
/// after its name, without bounds. Each type parameter must be `Fixed`, and each constant is
/// written with its type.
///
/// ```
/// #[derive(Clone, PartialEq, Debug)]
/// struct Metres(f64);
///
/// #[derive(Clone, PartialEq, Debug)]
/// struct Range<T, const N: usize> {
///     begin: T,
///     ends: [T; N],
/// }
///
/// odht::fields! { Metres(f64) }
/// odht::fields! { Range<T, const N: usize> { begin: T, ends: [T; N] } }
/// odht::config! { Heights: Range<u32, 2> => Metres, by Fx }
///
/// let mut heights = odht::HashTableOwned::<Heights>::new();
/// heights.insert(&Range { begin: 1, ends: [2, 3] }, &Metres(8848.0));
/// assert_eq!(heights.get(&Range { begin: 1, ends: [2, 3] }), Some(Metres(8848.0)));
/// ```
#[macro_export]
macro_rules! fields {
    ($name:ident < $($rest:tt)+) => {
        $crate::__generic_fields! { $name [] [] $($rest)+ }
    };
    ($name:ident $fields:tt) => {
        $crate::__fields! { [] [$name] $fields }
    };
}

// Takes the parameters of a generic struct one by one, up to the `>`: in the first list they are as an `impl` declares
// them, in the second as the struct takes them.
#[doc(hidden)]
#[macro_export]
macro_rules! __generic_fields {
    ($name:ident [$($impl:tt)*] [$($use:tt)*] const $n:ident : $type:ty , $($rest:tt)+) => {
        $crate::__generic_fields! { $name [$($impl)* const $n: $type,] [$($use)* $n,] $($rest)+ }
    };
    ($name:ident [$($impl:tt)*] [$($use:tt)*] const $n:ident : $type:ty > $($rest:tt)+) => {
        $crate::__generic_fields! { $name [$($impl)* const $n: $type,] [$($use)* $n,] > $($rest)+ }
    };
    ($name:ident [$($impl:tt)*] [$($use:tt)*] $t:ident , $($rest:tt)+) => {
        $crate::__generic_fields! { $name [$($impl)* $t: $crate::Fixed,] [$($use)* $t,] $($rest)+ }
    };
    ($name:ident [$($impl:tt)*] [$($use:tt)*] $t:ident > $($rest:tt)+) => {
        $crate::__generic_fields! { $name [$($impl)* $t: $crate::Fixed,] [$($use)* $t,] > $($rest)+ }
    };
    ($name:ident [$($impl:tt)*] [$($use:tt)*] > $fields:tt) => {
        $crate::__fields! { [$($impl)*] [$name<$($use)*>] $fields }
    };
}

// The fields of a struct, each by its name; those of a tuple struct are given their numbers first, one by one.
#[doc(hidden)]
#[macro_export]
macro_rules! __fields {
    ([$($impl:tt)*] [$($of:tt)+] { $($field:tt : $type:ty),+ $(,)? }) => {
        impl<$($impl)*> $crate::Fixed for $($of)+ {
            const LEN: usize = 0 $(+ <$type as $crate::Fixed>::LEN)+;

            #[inline(always)]
            fn write(&self, to: &mut [u8]) {
                let rest = to;
                $(
                    let (own, rest) = rest.split_at_mut(<$type as $crate::Fixed>::LEN);
                    $crate::Fixed::write(&self.$field, own);
                )+
                let _ = rest;
            }

            #[inline(always)]
            fn read(from: &[u8]) -> Self {
                let mut rest = from;
                // the fields of a literal are made in the order in which it has them
                let made = Self { $($field: {
                    let (own, behind) = rest.split_at(<$type as $crate::Fixed>::LEN);
                    rest = behind;
                    <$type as $crate::Fixed>::read(own)
                }),+ };
                let _ = rest;
                made
            }
        }
    };
    ($impl:tt $of:tt ($($type:ty),+ $(,)?)) => {
        $crate::__fields! { $impl $of [0 1 2 3 4 5 6 7 8 9 10 11 12 13 14 15] [] $($type,)+ }
    };
    ($impl:tt $of:tt [$at:tt $($after:tt)*] [$($done:tt)*] $type:ty, $($rest:ty,)*) => {
        $crate::__fields! { $impl $of [$($after)*] [$($done)* $at: $type,] $($rest,)* }
    };
    ($impl:tt $of:tt [$($after:tt)*] [$($done:tt)*]) => {
        $crate::__fields! { $impl $of { $($done)* } }
    };
}
