//! The jobs by this library, through its calls for C.

use std::hint::black_box;

use crate::keys::Key;
use crate::library::{b16_u32, u64_u32, Status};
use crate::sys;
use crate::work::{Work, PERCENT};

/// The calls for one kind of table.
pub trait Calls: Key {
    /// One of them, to see where the library's code is.
    const PLACE: *const ();

    fn bytes_needed(count: usize) -> usize;
    fn init(bytes: &mut [u8], count: usize) -> Result<(), Status>;
    fn insert(bytes: &mut [u8], key: &Self, value: u32) -> Result<Option<u32>, Status>;
    fn insert_all(bytes: &mut [u8], keys: &[Self], values: &[u32]) -> (Status, usize);
    fn open(bytes: &[u8]) -> Result<(), Status>;
    fn get(bytes: &[u8], key: &Self) -> Result<Option<u32>, Status>;
    fn get_all(
        bytes: &[u8],
        keys: &[Self],
        values: &mut [u32],
        found: &mut [u8],
    ) -> Result<(), Status>;
    fn walk(bytes: &[u8], keys: &mut [Self], values: &mut [u32]) -> Result<usize, Status>;

    /// Opened bytes.
    type View<'a>;

    fn open_view(bytes: &[u8]) -> Result<Self::View<'_>, Status>;
    fn view_get(view: &Self::View<'_>, key: &Self) -> Option<u32>;
}

/// `$key => $passed` says how a single key is handed over.
macro_rules! calls {
    ($type:ty, $calls:ident, $key:ident => $passed:expr) => {
        impl Calls for $type {
            const PLACE: *const () = sys::$calls::get_all as *const ();

            fn bytes_needed(count: usize) -> usize {
                $calls::bytes_needed(count, PERCENT).expect("the table fits")
            }

            fn init(bytes: &mut [u8], count: usize) -> Result<(), Status> {
                $calls::init(bytes, count, PERCENT)
            }

            fn insert(bytes: &mut [u8], $key: &$type, value: u32) -> Result<Option<u32>, Status> {
                $calls::insert(bytes, $passed, value)
            }

            fn insert_all(bytes: &mut [u8], keys: &[$type], values: &[u32]) -> (Status, usize) {
                $calls::insert_all(bytes, keys, values)
            }

            fn open(bytes: &[u8]) -> Result<(), Status> {
                $calls::open(bytes)
            }

            fn get(bytes: &[u8], $key: &$type) -> Result<Option<u32>, Status> {
                $calls::get(bytes, $passed)
            }

            fn get_all(
                bytes: &[u8],
                keys: &[$type],
                values: &mut [u32],
                found: &mut [u8],
            ) -> Result<(), Status> {
                $calls::get_all(bytes, keys, values, found)
            }

            fn walk(bytes: &[u8], keys: &mut [$type], values: &mut [u32]) -> Result<usize, Status> {
                $calls::walk(bytes, keys, values)
            }

            type View<'a> = $calls::View<'a>;

            fn open_view(bytes: &[u8]) -> Result<$calls::View<'_>, Status> {
                $calls::View::open(bytes)
            }

            fn view_get(view: &$calls::View<'_>, $key: &$type) -> Option<u32> {
                view.get($passed)
            }
        }
    };
}

calls!(u64, u64_u32, key => *key);
calls!([u8; 16], b16_u32, key => key);

fn init<K: Calls>(work: &mut Work<K>) {
    K::init(&mut work.table, work.keys.len()).expect("the length is right");
}

pub fn insert_all<K: Calls>(work: &mut Work<K>) {
    init(work);
    let answer = K::insert_all(&mut work.table, &work.keys, &work.values);
    assert_eq!(answer, (Status::OK, work.keys.len()));
}

/// One call for each pair.
pub fn insert<K: Calls>(work: &mut Work<K>) {
    init(work);
    for (key, value) in work.keys.iter().zip(&work.values) {
        K::insert(&mut work.table, key, *value).expect("there is room");
    }
}

pub fn get_all<K: Calls>(work: &mut Work<K>) {
    let answers = &mut work.answers;
    let (values, found) = (&mut answers.values, &mut answers.found);
    K::get_all(&work.table, &work.queries, values, found).expect("the table is valid");
}

/// Of the table that is in large pages.
pub fn get_all_in_large_pages<K: Calls>(work: &mut Work<K>) {
    let bytes = work.large.as_deref().expect("the table was copied");
    let answers = &mut work.answers;
    let (values, found) = (&mut answers.values, &mut answers.found);
    K::get_all(bytes, &work.queries, values, found).expect("the table is valid");
}

/// One call for each key, and each looks at the header.
pub fn get<K: Calls>(work: &mut Work<K>) {
    let table = &work.table;
    work.answers.write_each(&work.queries, |key| {
        K::get(table, key).expect("the table is valid")
    });
}

/// One call for each key of a table that was opened once.
pub fn view_get<K: Calls>(work: &mut Work<K>) {
    let view = K::open_view(&work.table).expect("the table is valid");
    work.answers
        .write_each(&work.queries, |key| K::view_get(&view, key));
}

pub fn walk<K: Calls>(work: &mut Work<K>) {
    let answers = &mut work.answers;
    let count = K::walk(&work.table, &mut answers.keys, &mut answers.values);
    assert_eq!(count, Ok(work.keys.len()));
}

/// Opens the table as many times as it has items.
pub fn open<K: Calls>(work: &mut Work<K>) {
    for _ in 0..work.keys.len() {
        assert!(K::open(black_box(&work.table)).is_ok());
    }
}

pub fn insert_growing(work: &mut Work<u64>) {
    let answer = u64_u32::build_growing(&work.keys, &work.values, &mut work.table);
    assert_eq!(answer, (Status::OK, work.table.len()));
}

pub fn from_iterator(work: &mut Work<u64>) {
    let answer = u64_u32::build(&work.keys, &work.values, PERCENT, &mut work.table);
    assert_eq!(answer, (Status::OK, work.table.len()));
}

/// Lists the slots in an order of inserts that makes the table.
pub fn insert_order(work: &mut Work<u64>) {
    let answer = u64_u32::insert_order(&work.table, &mut work.order);
    assert_eq!(answer, Ok(true));
}

pub fn check(work: &mut Work<u64>) {
    assert!(black_box(u64_u32::check(&work.table)).is_ok());
}

/// The bound of `odht.h` for tables of keys whose hashes vary.
pub const DEFAULT_GROUPS: usize = 128;

pub fn check_within(work: &mut Work<u64>) {
    assert!(black_box(u64_u32::check_within(&work.table, DEFAULT_GROUPS)).is_ok());
}

/// Makes a table of the pairs in the order in which they stand in another.
pub fn rebuild(work: &mut Work<u64>) {
    walk(work);
    let answers = &work.answers;
    let count = answers.keys.len();
    u64_u32::init(&mut work.spare, count, PERCENT).expect("the length is right");
    let answer = u64_u32::insert_all(&mut work.spare, &answers.keys, &answers.values);
    assert_eq!(answer, (Status::OK, count));
}
