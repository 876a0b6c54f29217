//! Tables that are read by position: from sources whose reads fail, are interrupted, give fewer bytes or end early,
//! each at every read in turn; from a source that changes between two reads; and from a file, which also shrinks. That
//! they answer what tables in memory do, on any bytes, is seen where those are tested (`common/frame.rs`,
//! `vectors.rs`).

use crate::common::random::Random;
use crate::common::reading::{Format, Hash};
use crate::common::writing::Writing;
use odht::dynamic::{DynError, FileError, FileTable, Layout, ReadAt, ReadError};
use odht::{Error, FxHashFn, UnHashFn};
use std::cell::Cell;

const LAYOUT: Layout = Layout { key_len: 8, value_len: 3 };

type Table<S> = FileTable<FxHashFn, S>;

// Pairs for 240 of 256 slots, so that searches read more than one group.
fn pairs() -> Vec<([u8; 8], [u8; 3])> {
    let key = |n: u64| (n * n).wrapping_mul(0x9e37_79b9_7f4a_7c15).to_le_bytes();
    (1..241).map(|n| (key(n), [n as u8, 5, 7])).collect()
}

fn table_of(pairs: &[([u8; 8], [u8; 3])]) -> Vec<u8> {
    let mut table = Writing::new(Format::new(8, 3, Hash::Fx), 240, 95);
    for (key, value) in pairs {
        table.insert(key, value);
    }
    table.bytes
}

// What happens at one of the reads.
#[derive(Clone, Copy, PartialEq, Debug)]
enum Fault {
    Fails,
    Interrupted,
    GivesOne,
    Ends,
}

// Bytes of which one read has a fault.
struct Faulty<'b> {
    bytes: &'b [u8],
    fault: Fault,
    at: usize,
    reads: Cell<usize>,
}

impl<'b> Faulty<'b> {
    fn new(bytes: &'b [u8], fault: Fault, at: usize) -> Self {
        Faulty { bytes, fault, at, reads: Cell::new(0) }
    }
}

impl ReadAt for Faulty<'_> {
    fn read_at(&self, offset: u64, out: &mut [u8]) -> Result<usize, ReadError> {
        let read = self.reads.replace(self.reads.get() + 1);
        if read != self.at {
            return self.bytes.read_at(offset, out);
        }
        match self.fault {
            Fault::Fails => Err(ReadError::Failed { code: 5 }),
            Fault::Interrupted => Err(ReadError::Interrupted),
            Fault::GivesOne => self.bytes.read_at(offset, &mut out[..1]),
            Fault::Ends => Ok(0),
        }
    }
}

// How many reads the opening and a lookup of the key need.
fn reads_of(bytes: &[u8], key: &[u8]) -> usize {
    let source = Faulty::new(bytes, Fault::Fails, usize::MAX);
    Table::open(LAYOUT, &source, bytes.len()).unwrap().get(key).unwrap();
    source.reads.get()
}

// The value of a key, from a table that is opened for it.
fn value_of(source: &Faulty<'_>, key: &[u8]) -> Result<Option<Vec<u8>>, FileError> {
    let table = Table::open(LAYOUT, source, source.bytes.len())?;
    Ok(table.get(key)?.map(|value| value.to_vec()))
}

#[test]
fn each_read_is_faulty_in_turn() {
    let pairs = pairs();
    let bytes = table_of(&pairs);
    let failed = Err(FileError::Read(ReadError::Failed { code: 5 }));
    let ended = Err(FileError::Read(ReadError::EarlyEnd));
    let mut most = 0;
    for (key, value) in &pairs {
        let (reads, whole) = (reads_of(&bytes, key), Ok(Some(value.to_vec())));
        most = most.max(reads);
        for at in 0..reads {
            let found = |fault| value_of(&Faulty::new(&bytes, fault, at), key);
            assert_eq!(found(Fault::Fails), failed);
            assert_eq!(found(Fault::Interrupted), whole);
            assert_eq!(found(Fault::GivesOne), whole);
            assert_eq!(found(Fault::Ends), ended);
        }
    }
    // a header, two parts of the first slots, then for some key two groups, its key and its value
    assert!(most >= 7, "{most}");
}

#[test]
fn lengths_are_read_from_the_header_first() {
    let bytes = table_of(&pairs());
    let opened = |fault, at| {
        let source = Faulty::new(&bytes, fault, at);
        let layout = Table::open_as_stated(&source, bytes.len()).map(|table| table.layout());
        (layout, source.reads.get())
    };
    let (layout, reads) = opened(Fault::Fails, usize::MAX);
    assert_eq!((layout, reads), (Ok(LAYOUT), 4));
    for at in 0..reads {
        assert_eq!(opened(Fault::Fails, at).0, Err(FileError::Read(ReadError::Failed { code: 5 })));
        assert_eq!(opened(Fault::Ends, at).0, Err(FileError::Read(ReadError::EarlyEnd)));
        assert_eq!(opened(Fault::Interrupted, at).0, Ok(LAYOUT));
        assert_eq!(opened(Fault::GivesOne, at).0, Ok(LAYOUT));
    }
    // the same bytes behind others
    let shifted = [&[7; 5][..], &bytes].concat();
    let behind = Table::open_at_as_stated(&shifted[..], 5, bytes.len()).map(|table| table.layout());
    assert_eq!(behind, Ok(LAYOUT));
}

// Each read is interrupted.
struct Interrupting;

impl ReadAt for Interrupting {
    fn read_at(&self, _: u64, _: &mut [u8]) -> Result<usize, ReadError> {
        Err(ReadError::Interrupted)
    }
}

#[test]
fn reads_are_not_made_again_for_ever() {
    let error = Table::open(LAYOUT, Interrupting, 200).err();
    assert_eq!(error, Some(FileError::Read(ReadError::Interrupted)));
}

// Another table from this read on.
struct Changing<'b> {
    before: &'b [u8],
    after: &'b [u8],
    at: usize,
    reads: Cell<usize>,
}

impl ReadAt for Changing<'_> {
    fn read_at(&self, offset: u64, out: &mut [u8]) -> Result<usize, ReadError> {
        let read = self.reads.replace(self.reads.get() + 1);
        let bytes = if read < self.at { self.before } else { self.after };
        bytes.read_at(offset, out)
    }
}

#[test]
fn bytes_that_change_between_reads_do_no_harm() {
    let pairs = pairs();
    let before = table_of(&pairs);
    let other = table_of(&pairs[100..]);
    let mut random = Random(3);
    let noise: Vec<u8> = (0..before.len()).map(|_| random.byte()).collect();
    let full = vec![0; before.len()];
    for after in [&other, &noise, &full, &before[..100].to_vec(), &Vec::new()] {
        for at in 3..9 {
            for (key, _) in &pairs {
                let source = Changing { before: &before, after, at, reads: Cell::new(0) };
                let table = Table::open(LAYOUT, source, before.len()).unwrap();
                match table.get_counted(key) {
                    Ok((_, groups)) => assert!(groups <= 16),
                    Err(error) => assert_eq!(error, FileError::Read(ReadError::EarlyEnd)),
                }
            }
        }
    }
}

// Of a source that cannot be read.
struct Unread;

impl ReadAt for Unread {
    fn read_at(&self, _: u64, _: &mut [u8]) -> Result<usize, ReadError> {
        panic!("a read")
    }
}

#[test]
fn what_is_known_without_a_read() {
    let keys = Layout { key_len: 3, value_len: 1 };
    let error = FileTable::<UnHashFn, _>::open(keys, Unread, 200).err();
    let short = DynError::KeyTooShort { key_len: 3, least: 4 };
    assert_eq!(error, Some(FileError::Table(short)));
    let error = Table::open_at(LAYOUT, Unread, u64::MAX, 200).err();
    assert_eq!(error, Some(FileError::Read(ReadError::EarlyEnd)));
    let error = Table::open(LAYOUT, Unread, 31).err();
    let short = DynError::Rejected(Error::TooShort { found: 31 });
    assert_eq!(error, Some(FileError::Table(short)));
}

#[test]
fn a_key_of_another_length_is_an_error_without_a_read() {
    let bytes = table_of(&pairs());
    let source = Faulty::new(&bytes, Fault::Fails, usize::MAX);
    let table = Table::open(LAYOUT, &source, bytes.len()).unwrap();
    assert_eq!(source.reads.get(), 3);
    for len in [0, 7, 9, 300] {
        let found = DynError::WrongKeyLength { expected: 8, found: len };
        let expected = Some(FileError::Table(found));
        assert_eq!(table.get(&vec![1; len]).err(), expected);
        assert_eq!(table.get_counted(&vec![1; len]).err(), expected);
        assert_eq!(table.contains_key(&vec![1; len]).err(), expected);
    }
    assert_eq!(source.reads.get(), 3);
}

// A source that says that it read more than there is room for.
struct Boasting;

impl ReadAt for Boasting {
    fn read_at(&self, _: u64, out: &mut [u8]) -> Result<usize, ReadError> {
        Ok(out.len() + 1)
    }
}

#[test]
fn a_source_that_boasts_has_failed() {
    let error = Table::open(LAYOUT, Boasting, 200).err();
    assert_eq!(error, Some(FileError::Read(ReadError::Failed { code: 0 })));
}

#[test]
#[cfg(all(feature = "std", unix))]
fn a_file_is_read_where_the_table_lies() {
    use std::fs::{self, File};
    let pairs = pairs();
    let bytes = table_of(&pairs);
    let path = std::env::temp_dir().join(format!("odht_file_tables_{}", std::process::id()));
    fs::write(&path, [&b"in front"[..], &bytes, &b"and behind"[..]].concat()).unwrap();
    let open = || Table::open_at(LAYOUT, File::open(&path).unwrap(), 8, bytes.len());
    let table = open().unwrap();
    assert_eq!((table.len(), table.is_empty(), table.layout()), (240, false, LAYOUT));
    for (key, value) in &pairs {
        assert_eq!(table.get(key).unwrap().as_deref(), Some(&value[..]));
        assert_eq!(table.contains_key(key), Ok(true));
    }
    assert_eq!(table.contains_key(&[7; 8]), Ok(false));
    // the file loses its control bytes
    File::options().write(true).open(&path).unwrap().set_len(100).unwrap();
    let ended = |error| assert_eq!(error, Some(FileError::Read(ReadError::EarlyEnd)));
    ended(table.get(&pairs[0].0).err());
    ended(open().err());
    fs::remove_file(&path).unwrap();
}
