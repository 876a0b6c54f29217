//! The calls of `include/odht.h`, with slices in place of pointers and lengths. Each returns its status.

use odht::{configs, Config, Error};

/// The statuses that are no errors of bytes.
pub const OK: u32 = 0;
pub const ABSENT: u32 = 32;
pub const REPLACED: u32 = 33;
pub const TOO_SMALL: u32 = 36;
pub const UNMADE: u32 = 37;

/// The calls for one shape of tables.
pub trait Calls: Config {
    fn bytes_needed(items: usize, percent: u8, length: &mut usize) -> u32;
    fn init(bytes: &mut [u8], items: usize, percent: u8) -> u32;
    fn open(bytes: &[u8]) -> u32;
    fn check(bytes: &[u8]) -> u32;
    fn check_within(bytes: &[u8], groups: usize) -> u32;
    fn get(bytes: &[u8], key: &Self::Key, value: &mut Self::Value) -> u32;
    fn insert(
        bytes: &mut [u8],
        key: &Self::Key,
        value: Self::Value,
        former: &mut Self::Value,
    ) -> u32;
    fn insert_all(
        bytes: &mut [u8],
        keys: &[Self::Key],
        values: &[Self::Value],
        accepted: &mut usize,
    ) -> u32;
    fn walk(
        bytes: &[u8],
        cursor: &mut usize,
        keys: &mut [Self::Key],
        values: &mut [Self::Value],
        count: &mut usize,
    ) -> u32;
    fn insert_order(bytes: &[u8], out: &mut [usize]) -> u32;
    fn grow(bytes: &[u8], out: &mut [u8], length: &mut usize) -> u32;
    fn build(
        keys: &[Self::Key],
        values: &[Self::Value],
        percent: u8,
        out: &mut [u8],
        length: &mut usize,
    ) -> u32;
}

include!("../../../bindings/rust/src/generated/shapes.rs");

// The type that a single key or value is passed as, and what is passed for a reference to one.
macro_rules! passed {
    (number $type:ty) => { $type };
    (bytes $type:ty) => { *const $type };
}
macro_rules! by {
    (number $reference:expr) => {
        *$reference
    };
    (bytes $reference:expr) => {
        $reference
    };
}

macro_rules! declare {
    ($(
        $module:ident, $shape:ident, $config:ident:
        $key:ty as $key_kind:ident => $value:ty $(as $value_kind:ident)?, $words:literal;
    )*) => { $(
        mod $module {
            // A set's values are `()`: the calls take pointers to these, and never read or write through them.
            #[allow(improper_ctypes)]
            unsafe extern "C" {
                #[link_name = concat!("odht_", stringify!($module), "_bytes_needed")]
                pub fn bytes_needed(items: usize, percent: u8, length: *mut usize) -> u32;
                #[link_name = concat!("odht_", stringify!($module), "_init")]
                pub fn init(bytes: *mut u8, len: usize, items: usize, percent: u8) -> u32;
                #[link_name = concat!("odht_", stringify!($module), "_open")]
                pub fn open(bytes: *const u8, len: usize) -> u32;
                #[link_name = concat!("odht_", stringify!($module), "_check")]
                pub fn check(bytes: *const u8, len: usize) -> u32;
                #[link_name = concat!("odht_", stringify!($module), "_check_within")]
                pub fn check_within(bytes: *const u8, len: usize, groups: usize) -> u32;
                #[link_name = concat!("odht_", stringify!($module), "_get")]
                pub fn get(
                    bytes: *const u8, len: usize, key: passed!($key_kind $key), value: *mut $value,
                ) -> u32;
                #[link_name = concat!("odht_", stringify!($module), "_insert")]
                pub fn insert(
                    bytes: *mut u8, len: usize, key: passed!($key_kind $key), $(value: passed!($value_kind $value),)?
                    former: *mut $value,
                ) -> u32;
                #[link_name = concat!("odht_", stringify!($module), "_insert_all")]
                pub fn insert_all(
                    bytes: *mut u8, len: usize, keys: *const $key, keys_len: usize,
                    values: *const $value, values_len: usize, accepted: *mut usize,
                ) -> u32;
                #[link_name = concat!("odht_", stringify!($module), "_walk")]
                pub fn walk(
                    bytes: *const u8, len: usize, cursor: *mut usize, keys: *mut $key,
                    keys_len: usize, values: *mut $value, values_len: usize,
                    count: *mut usize,
                ) -> u32;
                #[link_name = concat!("odht_", stringify!($module), "_insert_order")]
                pub fn insert_order(
                    bytes: *const u8, len: usize, out: *mut usize, out_len: usize,
                ) -> u32;
                #[link_name = concat!("odht_", stringify!($module), "_grow")]
                pub fn grow(
                    bytes: *const u8, len: usize, out: *mut u8, out_len: usize,
                    length: *mut usize,
                ) -> u32;
                #[link_name = concat!("odht_", stringify!($module), "_build")]
                pub fn build(
                    keys: *const $key, keys_len: usize, values: *const $value,
                    values_len: usize, percent: u8, out: *mut u8, out_len: usize,
                    length: *mut usize,
                ) -> u32;
            }
        }

        // SAFETY, of each call: pointers and lengths are those of slices, and pointers to numbers those of references.
        // What is borrowed to be written overlaps nothing else.
        impl Calls for configs::$config {
            fn bytes_needed(items: usize, percent: u8, length: &mut usize) -> u32 {
                unsafe { $module::bytes_needed(items, percent, length) }
            }
            fn init(bytes: &mut [u8], items: usize, percent: u8) -> u32 {
                unsafe { $module::init(bytes.as_mut_ptr(), bytes.len(), items, percent) }
            }
            fn open(bytes: &[u8]) -> u32 {
                unsafe { $module::open(bytes.as_ptr(), bytes.len()) }
            }
            fn check(bytes: &[u8]) -> u32 {
                unsafe { $module::check(bytes.as_ptr(), bytes.len()) }
            }
            fn check_within(bytes: &[u8], groups: usize) -> u32 {
                unsafe { $module::check_within(bytes.as_ptr(), bytes.len(), groups) }
            }
            fn get(bytes: &[u8], key: &$key, value: &mut $value) -> u32 {
                unsafe { $module::get(bytes.as_ptr(), bytes.len(), by!($key_kind key), value) }
            }
            fn insert(
                bytes: &mut [u8], key: &$key, value: $value, former: &mut $value,
            ) -> u32 {
                let _ = value;
                let (pointer, len) = (bytes.as_mut_ptr(), bytes.len());
                unsafe { $module::insert(pointer, len, by!($key_kind key), $(by!($value_kind &value),)? former) }
            }
            fn insert_all(
                bytes: &mut [u8], keys: &[$key], values: &[$value],
                accepted: &mut usize,
            ) -> u32 {
                unsafe {
                    $module::insert_all(
                        bytes.as_mut_ptr(), bytes.len(), keys.as_ptr(), keys.len(),
                        values.as_ptr(), values.len(), accepted,
                    )
                }
            }
            fn walk(
                bytes: &[u8], cursor: &mut usize, keys: &mut [$key],
                values: &mut [$value], count: &mut usize,
            ) -> u32 {
                unsafe {
                    $module::walk(
                        bytes.as_ptr(), bytes.len(), cursor, keys.as_mut_ptr(), keys.len(),
                        values.as_mut_ptr(), values.len(), count,
                    )
                }
            }
            fn insert_order(bytes: &[u8], out: &mut [usize]) -> u32 {
                let (pointer, length) = (out.as_mut_ptr(), out.len());
                unsafe { $module::insert_order(bytes.as_ptr(), bytes.len(), pointer, length) }
            }
            fn grow(bytes: &[u8], out: &mut [u8], length: &mut usize) -> u32 {
                let (pointer, len) = (out.as_mut_ptr(), out.len());
                unsafe { $module::grow(bytes.as_ptr(), bytes.len(), pointer, len, length) }
            }
            fn build(
                keys: &[$key], values: &[$value], percent: u8, out: &mut [u8],
                length: &mut usize,
            ) -> u32 {
                unsafe {
                    $module::build(
                        keys.as_ptr(), keys.len(), values.as_ptr(), values.len(), percent,
                        out.as_mut_ptr(), out.len(), length,
                    )
                }
            }
        }
    )* };
}

each_shape!(declare);

/// The status of a result.
pub fn status<T>(result: &Result<T, Error>) -> u32 {
    match result {
        Ok(_) => OK,
        Err(error) => match error {
            // begin status: generated from lists/errors.txt by make generate
            Error::TooShort { .. } => 1,
            Error::WrongTag { .. } => 2,
            Error::WrongVersion { .. } => 3,
            Error::WrongSizeOf { .. } => 4,
            Error::SlotCountNotPowerOfTwo { .. } => 5,
            Error::SlotCountTooSmall { .. } => 6,
            Error::WrongLength { .. } => 7,
            Error::NonZeroEmpty { .. } => 8,
            Error::ControlMismatch { .. } => 9,
            Error::LoadFactorTooSmall { .. } => 10,
            Error::NonZeroPadding { .. } => 11,
            Error::BadFreeControl { .. } => 12,
            Error::MirrorMismatch { .. } => 13,
            Error::WrongItemCount { .. } => 14,
            Error::TooManyItems { .. } => 15,
            Error::Unreachable { .. } => 16,
            Error::InitLength { .. } => 17,
            Error::Full => 18,
            Error::Memory => 19,
            Error::Capacity => 20,
            Error::SearchTooLong { .. } => 21,
            // end status
            other => panic!("{other:?} has no number for C here"),
        },
    }
}
