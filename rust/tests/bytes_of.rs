//! Tables in what gives its bytes by `AsRef` and not by `Borrow`: a reference to a vector, an array that is built in,
//! and a mapped file.
//!
//! For the mapped file a type stands that has the traits of memmap2's. Another type gives other bytes each time.

use crate::common::outcomes::outcome;
use crate::common::worked::three_pairs;
use odht::configs::U64ToU32;
use odht::dynamic::DynTable;
use odht::{bytes_needed, BytesOf, Error, FxHashFn, HashTable};
use std::cell::Cell;
use std::mem::size_of;
use std::ops::{Deref, DerefMut};

type View<D> = HashTable<U64ToU32, D>;

const OTHERS: &str = "the bytes of a table are not those that were opened";

// The traits of `Mmap` of the crate memmap2: `Deref` and `AsRef`.
struct Mapped(Vec<u8>);

impl Deref for Mapped {
    type Target = [u8];

    fn deref(&self) -> &[u8] {
        &self.0
    }
}

impl AsRef<[u8]> for Mapped {
    fn as_ref(&self) -> &[u8] {
        self
    }
}

// Those of its `MmapMut`: `DerefMut` and `AsMut` too.
struct MappedMut(Vec<u8>);

impl Deref for MappedMut {
    type Target = [u8];

    fn deref(&self) -> &[u8] {
        &self.0
    }
}

impl DerefMut for MappedMut {
    fn deref_mut(&mut self) -> &mut [u8] {
        &mut self.0
    }
}

impl AsRef<[u8]> for MappedMut {
    fn as_ref(&self) -> &[u8] {
        self
    }
}

impl AsMut<[u8]> for MappedMut {
    fn as_mut(&mut self) -> &mut [u8] {
        self
    }
}

fn reads<T: AsRef<[u8]>>(store: T) {
    let table = View::try_from_raw_bytes(BytesOf(store)).unwrap();
    assert_eq!((table.get(&3), table.get(&4), table.len()), (Some(4), None, 3));
    assert_eq!(table.iter().count(), 3);
    assert!(table.verify() && table.raw_bytes() == three_pairs());
    assert_eq!(table.into_data().0.as_ref(), three_pairs());
}

#[test]
fn what_has_bytes_by_reference_is_opened() {
    let bytes = three_pairs();
    let array: &[u8; 256] = bytes[..].try_into().unwrap();
    reads(&bytes);
    reads(array);
    reads(Mapped(bytes.clone()));
    let mapped = Mapped(bytes.clone());
    reads(&mapped);
    reads(bytes.clone().into_boxed_slice());
    let sized = DynTable::<FxHashFn, _>::open_as_stated(BytesOf(Mapped(bytes))).unwrap();
    assert_eq!(sized.get(&3_u64.to_le_bytes()), Some(&[4, 0, 0, 0][..]));
}

fn writes<T: AsRef<[u8]> + AsMut<[u8]>>(store: T) -> T {
    let mut table = View::try_init_in_place(BytesOf(store), 3, 95).unwrap();
    assert_eq!(table.insert(&1, &9), None);
    assert_eq!(table.try_insert_all(&[(1, 2), (3, 4), (5, 6)]), (3, Ok(())));
    table.into_data().0
}

#[test]
fn what_has_bytes_to_be_written_is_written() {
    let zeros = || vec![0; bytes_needed::<U64ToU32>(3, 95)];
    assert_eq!(writes(zeros()), three_pairs());
    assert_eq!(writes(MappedMut(zeros())).0, three_pairs());
    let mut bytes = zeros();
    writes(&mut bytes);
    assert_eq!(bytes, three_pairs());
}

// Bytes that are rejected are rejected with the same error, and a copy of the wrapper is a view of its own.
#[test]
fn what_is_no_table_is_rejected() {
    let error = View::try_from_raw_bytes(BytesOf("no table")).unwrap_err();
    assert_eq!(error, Error::TooShort { found: 8 });
    let bytes = three_pairs();
    let one = View::try_from_raw_bytes(BytesOf(&bytes)).unwrap();
    let other = one;
    assert_eq!((one.get(&5), other.get(&5)), (Some(6), Some(6)));
    assert_eq!(size_of::<BytesOf<&[u8]>>(), 16);
}

// It gives the first of its buffers `left` times, and then the second.
struct Turning {
    buffers: [Vec<u8>; 2],
    left: Cell<usize>,
}

impl Turning {
    fn turn(&self) -> usize {
        let left = self.left.get();
        self.left.set(left.saturating_sub(1));
        usize::from(left == 0)
    }
}

impl AsRef<[u8]> for Turning {
    fn as_ref(&self) -> &[u8] {
        &self.buffers[self.turn()]
    }
}

impl AsMut<[u8]> for Turning {
    fn as_mut(&mut self) -> &mut [u8] {
        let turn = self.turn();
        &mut self.buffers[turn]
    }
}

#[test]
fn other_bytes_are_told() {
    let mut wider = three_pairs();
    wider[16] = 32; // the slot count, at the length for 16 slots
    for other in [vec![], three_pairs()[..255].to_vec(), [three_pairs(), vec![0]].concat(), wider] {
        let buffers = [three_pairs(), other];
        let open = || {
            let store = Turning { buffers: buffers.clone(), left: Cell::new(1) };
            View::try_from_raw_bytes(BytesOf(store)).unwrap()
        };
        let key = 3_u64.to_le_bytes();
        assert_eq!(outcome(|| open().get(&3)).unwrap_err(), OTHERS);
        assert_eq!(outcome(|| open().get_encoded(&key)).unwrap_err(), OTHERS);
        assert_eq!(outcome(|| open().contains_encoded(&key)).unwrap_err(), OTHERS);
        assert_eq!(outcome(|| open().iter().count()).unwrap_err(), OTHERS);
        assert_eq!(outcome(|| open().into_keys().next()).unwrap_err(), OTHERS);
        assert_eq!(outcome(|| open().into_values().len()).unwrap_err(), OTHERS);
        assert_eq!(outcome(|| open().try_insert(&3, &5)).unwrap_err(), OTHERS);
        assert_eq!(outcome(|| open().try_insert_encoded(&key, &5)).unwrap_err(), OTHERS);
        assert_eq!(outcome(|| open().try_insert_all(&[(3, 5)])).unwrap_err(), OTHERS);
    }
}
