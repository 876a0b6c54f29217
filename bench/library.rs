//! The library's calls as safe functions, each of one call: modules `u64_u32` and `b16_u32`. The declarations are
//! those of the Rust crate.
//!
//! They are safe because the library never reads or writes beyond the slices that it is given, whatever they hold;
//! because the pointer of a Rust slice is never null; because no slice that is borrowed for writing overlaps another
//! one; and because a view borrows the bytes that it has opened, so that nobody writes them while it is there.

/// What a call answers, a number of `enum odht_status`.
#[derive(Clone, Copy, Debug, PartialEq, Eq)]
pub struct Status(pub u32);

impl Status {
    pub const OK: Status = Status(0);
    pub const ABSENT: Status = Status(32);
    pub const REPLACED: Status = Status(33);
    pub const SEARCH_TOO_LONG: Status = Status(21);
    pub const UNMADE: Status = Status(37);

    /// `answer` where the status is `OK`, else the status.
    fn with<T>(self, answer: T) -> Result<T, Status> {
        if self == Status::OK {
            Ok(answer)
        } else {
            Err(self)
        }
    }
}

/// The calls of one kind of table, in a module of its own. `$argument => $passed` says how a single key is handed over.
macro_rules! safe_calls {
    ($(#[$comment:meta])* $module:ident, $argument:ident: $argument_type:ty => $passed:expr, $key:ty) => {
        $(#[$comment])*
        pub mod $module {
            use std::marker::PhantomData;

            use super::Status;
            use crate::sys::{self, $module as calls};

            /// The length in bytes of a table.
            pub fn bytes_needed(max_item_count: usize, percent: u8) -> Result<usize, Status> {
                let mut len = 0;
                Status(unsafe { calls::bytes_needed(max_item_count, percent, &mut len) }).with(len)
            }

            /// Makes an empty table in bytes of exactly that length.
            pub fn init(bytes: &mut [u8], max_item_count: usize, percent: u8) -> Result<(), Status> {
                let (pointer, length) = (bytes.as_mut_ptr(), bytes.len());
                Status(unsafe { calls::init(pointer, length, max_item_count, percent) }).with(())
            }

            /// Whether the bytes can be used as a table.
            pub fn open(bytes: &[u8]) -> Result<(), Status> {
                Status(unsafe { calls::open(bytes.as_ptr(), bytes.len()) }).with(())
            }

            /// Whether the bytes are valid, to the last one.
            pub fn check(bytes: &[u8]) -> Result<(), Status> {
                Status(unsafe { calls::check(bytes.as_ptr(), bytes.len()) }).with(())
            }

            /// The same, and whether no search reads more than so many groups.
            pub fn check_within(bytes: &[u8], groups: usize) -> Result<(), Status> {
                Status(unsafe { calls::check_within(bytes.as_ptr(), bytes.len(), groups) }).with(())
            }

            /// Inserts a pair; the answer is the former value where the key was there.
            pub fn insert(bytes: &mut [u8], $argument: $argument_type, value: u32) -> Result<Option<u32>, Status> {
                let (pointer, length) = (bytes.as_mut_ptr(), bytes.len());
                let mut former = 0;
                let status = Status(unsafe { calls::insert(pointer, length, $passed, value, &mut former) });
                if status == Status::REPLACED { Ok(Some(former)) } else { status.with(None) }
            }

            /// Inserts pairs up to the first that is refused; the answer is the status, and how many were inserted.
            pub fn insert_all(bytes: &mut [u8], keys: &[$key], values: &[u32]) -> (Status, usize) {
                let mut accepted = 0;
                let status = unsafe {
                    calls::insert_all(bytes.as_mut_ptr(), bytes.len(), keys.as_ptr(), keys.len(),
                        values.as_ptr(), values.len(), &mut accepted)
                };
                (Status(status), accepted)
            }

            /// Looks a key up; the answer is its value where it is there.
            pub fn get(bytes: &[u8], $argument: $argument_type) -> Result<Option<u32>, Status> {
                let mut value = 0;
                let status = Status(unsafe { calls::get(bytes.as_ptr(), bytes.len(), $passed, &mut value) });
                if status == Status::ABSENT { Ok(None) } else { status.with(Some(value)) }
            }

            /// Looks all keys up: `found[i]` becomes 1 and `values[i]` the value, or `found[i]` becomes 0.
            pub fn get_all(bytes: &[u8], keys: &[$key], values: &mut [u32], found: &mut [u8]) -> Result<(), Status> {
                let status = unsafe {
                    calls::get_all(bytes.as_ptr(), bytes.len(), keys.as_ptr(), keys.len(),
                        values.as_mut_ptr(), values.len(), found.as_mut_ptr(), found.len())
                };
                Status(status).with(())
            }

            /// Writes the pairs into two arrays in slot order; the answer is their number.
            pub fn walk(bytes: &[u8], keys: &mut [$key], values: &mut [u32]) -> Result<usize, Status> {
                let (mut cursor, mut count) = (0, 0);
                let status = unsafe {
                    calls::walk(bytes.as_ptr(), bytes.len(), &mut cursor, keys.as_mut_ptr(), keys.len(),
                        values.as_mut_ptr(), values.len(), &mut count)
                };
                Status(status).with(count)
            }

            /// Whether inserts can make the table; `out`, which has a place for each item, then lists the slots that
            /// hold a pair in an order in which they do.
            pub fn insert_order(bytes: &[u8], out: &mut [usize]) -> Result<bool, Status> {
                let (pointer, length) = (out.as_mut_ptr(), out.len());
                let status = Status(unsafe { calls::insert_order(bytes.as_ptr(), bytes.len(), pointer, length) });
                if status == Status::UNMADE { Ok(false) } else { status.with(true) }
            }

            /// Makes a table for exactly these pairs in the first bytes of `out`; the answer is the status, and the
            /// table's length where it is `OK` or `TOO_SMALL`.
            pub fn build(keys: &[$key], values: &[u32], percent: u8, out: &mut [u8]) -> (Status, usize) {
                let mut len = 0;
                let status = unsafe {
                    calls::build(keys.as_ptr(), keys.len(), values.as_ptr(), values.len(), percent,
                        out.as_mut_ptr(), out.len(), &mut len)
                };
                (Status(status), len)
            }

            /// The same by inserts into a table that grows from 16 slots at 87 percent.
            pub fn build_growing(keys: &[$key], values: &[u32], out: &mut [u8]) -> (Status, usize) {
                let mut len = 0;
                let status = unsafe {
                    calls::build_growing(keys.as_ptr(), keys.len(), values.as_ptr(), values.len(),
                        out.as_mut_ptr(), out.len(), &mut len)
                };
                (Status(status), len)
            }

            /// Bytes that were opened once: lookups look at no header.
            #[derive(Clone, Copy)]
            pub struct View<'a> {
                view: sys::View,
                bytes: PhantomData<&'a [u8]>,
            }

            impl<'a> View<'a> {
                /// Opens the bytes as `open` does.
                pub fn open(bytes: &'a [u8]) -> Result<View<'a>, Status> {
                    let mut view = sys::View { bytes: bytes.as_ptr(), len: 0 };
                    let status = unsafe { calls::open_view(bytes.as_ptr(), bytes.len(), &mut view) };
                    Status(status).with(View { view, bytes: PhantomData })
                }

                /// The value of a key where it is there.
                pub fn get(&self, $argument: $argument_type) -> Option<u32> {
                    let mut value = 0;
                    let status = Status(unsafe { calls::view_get(&self.view, $passed, &mut value) });
                    (status == Status::OK).then_some(value)
                }
            }
        }
    };
}

safe_calls! {
    /// Tables from numbers of 64 bits to numbers of 32 bits, hashed by `FxHashFn`.
    u64_u32, key: u64 => key, u64
}

safe_calls! {
    /// Tables from 16 bytes, a hash already, to numbers of 32 bits, hashed by `UnHashFn`.
    b16_u32, key: &[u8; 16] => key, [u8; 16]
}
