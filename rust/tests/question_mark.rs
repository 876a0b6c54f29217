//! What `?` makes of an error: in functions whose errors go to other threads, or are of a type of their own, as those
//! of crates for errors are.

use crate::common::worked::three_pairs;
use odht::configs::U64ToU32;
use odht::{
    bytes_needed, check_all, table_len, try_bytes_needed, Error, HashTable, HashTableOwned,
};
use std::error::Error as AnyError;
use std::fmt;

// Takes every error that may go to threads, as the types of such crates do, and is none itself.
struct AnyOfThem(Box<dyn AnyError + Send + Sync>);

impl<E: AnyError + Send + Sync + 'static> From<E> for AnyOfThem {
    fn from(error: E) -> Self {
        AnyOfThem(Box::new(error))
    }
}

// An error of the caller's own.
#[derive(Debug, PartialEq)]
enum Mine {
    Table(Error),
}

impl fmt::Display for Mine {
    fn fmt(&self, f: &mut fmt::Formatter<'_>) -> fmt::Result {
        let Mine::Table(error) = self;
        write!(f, "the table: {error}")
    }
}

impl From<Error> for Mine {
    fn from(error: Error) -> Self {
        Mine::Table(error)
    }
}

// Each call whose answer is an error, in a function that returns another one.
macro_rules! each_call {
    ($name:ident, $error:ty) => {
        fn $name(bytes: &[u8]) -> Result<u32, $error> {
            let view = HashTable::<U64ToU32, _>::try_from_raw_bytes(bytes)?;
            let value = view.get(&3);
            let mut table = HashTableOwned::<U64ToU32>::try_from_raw_bytes(bytes)?;
            HashTableOwned::<U64ToU32>::from_raw_bytes_within(bytes, 1)?;
            HashTableOwned::<U64ToU32>::try_with_capacity(3, 95)?;
            HashTableOwned::<U64ToU32>::try_from_iterator([(1, 2)], 95)?.try_clone()?;
            table.try_insert(&7, &8)?;
            table.try_insert_all(&[(9, 10)]).1?;
            let room = vec![0; try_bytes_needed::<U64ToU32>(3, 95)?];
            HashTable::<U64ToU32, _>::try_init_in_place(room, 3, 95)?.try_insert(&1, &2)?;
            HashTable::<U64ToU32, _>::open_prefix(bytes)?;
            table_len::<U64ToU32>(bytes)?;
            view.check_all()?;
            check_all::<U64ToU32>(bytes)?;
            Ok(value.unwrap_or(0))
        }
    };
}

each_call!(in_a_box, Box<dyn AnyError>);
each_call!(in_a_box_for_threads, Box<dyn AnyError + Send + Sync>);
each_call!(as_any_of_them, AnyOfThem);
each_call!(as_mine, Mine);
each_call!(as_it_is, Error);

#[test]
fn question_marks_hand_the_error_on() {
    let bytes = three_pairs();
    let cut = &bytes[..7];
    let expected = Error::TooShort { found: 7 };
    assert_eq!(in_a_box(&bytes).unwrap(), 4);
    assert_eq!(in_a_box(cut).unwrap_err().downcast_ref(), Some(&expected));
    assert_eq!(in_a_box_for_threads(&bytes).unwrap(), 4);
    assert_eq!(in_a_box_for_threads(cut).unwrap_err().downcast_ref(), Some(&expected));
    assert_eq!(as_any_of_them(&bytes).ok(), Some(4));
    assert_eq!(as_any_of_them(cut).err().unwrap().0.downcast_ref(), Some(&expected));
    assert_eq!((as_mine(&bytes), as_mine(cut)), (Ok(4), Err(Mine::Table(expected))));
    assert_eq!((as_it_is(&bytes), as_it_is(cut)), (Ok(4), Err(expected)));
}

#[test]
fn an_error_goes_to_another_thread() {
    let error = std::thread::spawn(|| in_a_box_for_threads(b"no table")).join().unwrap();
    assert_eq!(error.unwrap_err().downcast_ref(), Some(&Error::TooShort { found: 8 }));
}

// The calls that are the original's: their box is one of any error, and goes to no thread.
#[test]
fn boxes_of_the_original() -> Result<(), Box<dyn AnyError>> {
    let bytes = three_pairs();
    assert_eq!(HashTable::<U64ToU32, _>::from_raw_bytes(&bytes[..])?.get(&3), Some(4));
    assert_eq!(HashTableOwned::<U64ToU32>::from_raw_bytes(&bytes)?.get(&3), Some(4));
    let room = vec![0; bytes_needed::<U64ToU32>(3, 95)];
    assert_eq!(HashTable::<U64ToU32, _>::init_in_place(room, 3, 95)?.len(), 0);
    Ok(())
}
