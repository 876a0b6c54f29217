//! A table that is read by position in a file.

use super::{Layout, ShortBytes};
use crate::config::{Hash, HashFn};
use crate::generated::raw::read_at;
use crate::generated::tables::dynamic;
use alloc::vec::Vec;
use std::fmt;

pub use crate::generated::raw::read_at::ReadError;
pub use crate::generated::tables::dynamic::FileError;

impl fmt::Display for ReadError {
    fn fmt(&self, f: &mut fmt::Formatter<'_>) -> fmt::Result {
        match self {
            ReadError::Interrupted => f.write_str("a read was interrupted too often"),
            ReadError::EarlyEnd => f.write_str("the bytes end before those that are read"),
            ReadError::Failed { code } => write!(f, "a read failed with error {code}"),
        }
    }
}

impl std::error::Error for ReadError {}

impl fmt::Display for FileError {
    fn fmt(&self, f: &mut fmt::Formatter<'_>) -> fmt::Result {
        match self {
            FileError::Read(error) => error.fmt(f),
            FileError::Table(error) => error.fmt(f),
        }
    }
}

impl std::error::Error for FileError {}

/// A source of bytes that are read by position, such as a file.
///
/// You can implement it for other sources, such as everything that can seek:
///
/// ```
/// use odht::dynamic::{FileTable, ReadAt, ReadError};
/// use odht::{configs::U64ToU32, FxHashFn, HashTableOwned};
/// use std::cell::RefCell;
/// use std::io::{Cursor, ErrorKind, Read, Seek, SeekFrom};
///
/// struct Seeking<F>(RefCell<F>);
///
/// impl<F: Read + Seek> ReadAt for Seeking<F> {
///     fn read_at(&self, offset: u64, out: &mut [u8]) -> Result<usize, ReadError> {
///         let mut file = self.0.borrow_mut();
///         let read = file.seek(SeekFrom::Start(offset)).and_then(|_| file.read(out));
///         read.map_err(|error| match error.kind() {
///             ErrorKind::Interrupted => ReadError::Interrupted,
///             _ => ReadError::Failed { code: 0 },
///         })
///     }
/// }
///
/// let bytes = HashTableOwned::<U64ToU32>::from([(1, 2)]).into_raw_bytes();
/// let len = bytes.len();
/// let source = Seeking(RefCell::new(Cursor::new(bytes)));
/// let table = FileTable::<FxHashFn, _>::open_as_stated(source, len)?;
/// assert_eq!(table.get(&1_u64.to_le_bytes())?.as_deref(), Some(&[2, 0, 0, 0][..]));
/// # Ok::<(), odht::dynamic::FileError>(())
/// ```
pub trait ReadAt {
    /// Reads bytes from `offset` on into the front of `out`, and returns the number of bytes read.
    /// One read may return fewer bytes than `out` has room for. It returns 0 at the end of the
    /// source. On an error, `out` may have changed.
    ///
    /// # Errors
    ///
    /// Return `Interrupted` if the caller should read again, and `Failed` if not. If the returned
    /// number exceeds the length of `out`, the read counts as failed with the code 0.
    fn read_at(&self, offset: u64, out: &mut [u8]) -> Result<usize, ReadError>;
}

impl ReadAt for [u8] {
    fn read_at(&self, offset: u64, out: &mut [u8]) -> Result<usize, ReadError> {
        read_at::ReadAt::read_at(&read_at::BytesSource::new(self), offset, out)
    }
}

impl ReadAt for Vec<u8> {
    fn read_at(&self, offset: u64, out: &mut [u8]) -> Result<usize, ReadError> {
        self.as_slice().read_at(offset, out)
    }
}

impl<T: ReadAt + ?Sized> ReadAt for &T {
    fn read_at(&self, offset: u64, out: &mut [u8]) -> Result<usize, ReadError> {
        (**self).read_at(offset, out)
    }
}

/// Each read is one system call. It does not move the file's own position.
#[cfg(all(feature = "std", unix))]
impl ReadAt for std::fs::File {
    fn read_at(&self, offset: u64, out: &mut [u8]) -> Result<usize, ReadError> {
        use std::os::unix::fs::FileExt;
        FileExt::read_at(self, out, offset).map_err(|error| match error.kind() {
            std::io::ErrorKind::Interrupted => ReadError::Interrupted,
            _ => ReadError::Failed { code: error.raw_os_error().unwrap_or(0).unsigned_abs() },
        })
    }
}

// Adapts a source to the trait of the proved library. A source that reports more bytes than there
// is room for has failed.
struct Source<S>(S);

impl<S: ReadAt> read_at::ReadAt for Source<S> {
    fn read_at(&self, offset: u64, out: &mut [u8]) -> Result<usize, ReadError> {
        match self.0.read_at(offset, out) {
            Ok(count) if count > out.len() => Err(ReadError::Failed { code: 0 }),
            result => result,
        }
    }
}

/// A table in a file, or in another source that is read by position. Lookups need not load the
/// whole table into memory.
///
/// Opening reads the header and the first slots. Each lookup reads the groups of control bytes up
/// to the end of its search, the keys whose tag matches, and the value.
///
/// If the bytes of the source do not change, each call returns what the same call of a
/// [`DynTable`](super::DynTable) over them returns, or a read error. The only difference: a key of
/// another length is an error. If the bytes change meanwhile, a lookup may return an error, or a
/// value that the table had at no single time. It does no other harm.
///
/// ```
/// use odht::dynamic::{FileError, FileTable, Layout};
/// use odht::{configs::U64ToU32, FxHashFn, HashTableOwned};
///
/// let mut table = HashTableOwned::<U64ToU32>::default();
/// table.insert(&1, &2);
/// let layout = Layout { key_len: 8, value_len: 4 };
/// // For a table in a file, pass a `std::fs::File` instead, and its length.
/// let bytes = table.raw_bytes();
/// let found = FileTable::<FxHashFn, _>::open(layout, bytes, bytes.len())?;
/// let value = found.get(&1_u64.to_le_bytes())?;
/// assert_eq!(value.as_deref(), Some(&2_u32.to_le_bytes()[..]));
/// assert_eq!((found.len(), found.contains_key(&[9; 8])?), (1, false));
/// # Ok::<(), FileError>(())
/// ```
pub struct FileTable<H: HashFn, S: ReadAt> {
    table: dynamic::FileTable<Hash<H>, Source<S>>,
}

impl<H: HashFn, S: ReadAt> FileTable<H, S> {
    /// Opens a whole source of `len` bytes as a table: [`open_at`](FileTable::open_at) with offset
    /// 0.
    ///
    /// # Errors
    ///
    /// Those of [`open_at`](FileTable::open_at).
    pub fn open(layout: Layout, source: S, len: usize) -> Result<Self, FileError> {
        FileTable::open_at(layout, source, 0, len)
    }

    /// Opens the `len` bytes from `offset` on as a table with these key and value lengths. It reads
    /// the header, the first 32 control bytes, and the entries of sixteen slots. It does not check
    /// that the source has `len` bytes. If the source ends earlier, a lookup may return `EarlyEnd`.
    ///
    /// ```
    /// # use odht::dynamic::{FileError, FileTable, Layout};
    /// # use odht::{configs::U64ToU32, FxHashFn, HashTableOwned};
    /// let table = HashTableOwned::<U64ToU32>::from([(1, 2)]);
    /// let archive = [b"a header", table.raw_bytes()].concat();
    /// let (layout, len) = (Layout::of::<U64ToU32>(), table.raw_bytes().len());
    /// let found = FileTable::<FxHashFn, _>::open_at(layout, &archive, 8, len)?;
    /// assert_eq!(found.get(&1_u64.to_le_bytes())?.as_deref(), Some(&[2, 0, 0, 0][..]));
    /// # Ok::<(), FileError>(())
    /// ```
    ///
    /// # Errors
    ///
    /// Returns the first of these errors that applies:
    ///
    /// - `Table` with `KeyTooShort` if the hash function needs longer keys
    /// - `Read` with `EarlyEnd` if `offset + len` is 2^64 or more
    /// - `Read` with the error of a read, or `Table` with the error that
    ///   [`DynTable::open`](super::DynTable::open) returns for these bytes
    pub fn open_at(layout: Layout, source: S, offset: u64, len: usize) -> Result<Self, FileError> {
        let source = Source(source);
        let table = dynamic::FileTable::open_at(layout.proved(), source, offset, len)?;
        Ok(FileTable { table })
    }

    /// Opens a whole source of `len` bytes as a table:
    /// [`open_at_as_stated`](FileTable::open_at_as_stated) with offset 0.
    ///
    /// ```no_run
    /// # #[cfg(all(feature = "std", unix))]
    /// # fn main() -> Result<(), Box<dyn std::error::Error>> {
    /// use odht::{dynamic::FileTable, FxHashFn};
    /// use std::fs::File;
    ///
    /// let file = File::open("table.odht")?;
    /// let len = usize::try_from(file.metadata()?.len())?;
    /// let table = FileTable::<FxHashFn, _>::open_as_stated(file, len)?;
    /// println!("{} items, with keys of {} bytes", table.len(), table.layout().key_len);
    /// # Ok(())
    /// # }
    /// # #[cfg(not(all(feature = "std", unix)))]
    /// # fn main() {}
    /// ```
    ///
    /// # Errors
    ///
    /// Those of [`open_at_as_stated`](FileTable::open_at_as_stated).
    pub fn open_as_stated(source: S, len: usize) -> Result<Self, FileError> {
        FileTable::open_at_as_stated(source, 0, len)
    }

    /// Like [`open_at`](FileTable::open_at), with the key and value lengths that the header states.
    /// [`layout`](FileTable::layout) returns them. This takes one more read, since the header is
    /// read by itself first.
    ///
    /// # Errors
    ///
    /// Returns the first of these errors that applies:
    ///
    /// - `Read` with `EarlyEnd` if `offset + len` is 2^64 or more
    /// - `Read` with the error of a read, or `Table` with the error that
    ///   [`DynTable::open_as_stated`](super::DynTable::open_as_stated) returns for these bytes
    pub fn open_at_as_stated(source: S, offset: u64, len: usize) -> Result<Self, FileError> {
        let table = dynamic::FileTable::open_at_as_stated(Source(source), offset, len)?;
        Ok(FileTable { table })
    }

    /// Returns the lengths of keys and values.
    #[must_use]
    pub fn layout(&self) -> Layout {
        let layout = self.table.layout();
        Layout { key_len: layout.key_len, value_len: layout.value_len }
    }

    /// Returns the number of items, as the header stated it when the table was opened.
    #[must_use]
    pub fn len(&self) -> usize {
        self.table.len()
    }

    /// Returns `true` if [`len`](FileTable::len) is 0.
    #[must_use]
    pub fn is_empty(&self) -> bool {
        self.len() == 0
    }

    /// Returns the value of a key, or `None`.
    ///
    /// # Errors
    ///
    /// Returns the first of these errors that applies:
    ///
    /// - `Table` with [`WrongKeyLength`](super::DynError::WrongKeyLength) if the key is longer or
    ///   shorter than the table's keys. Nothing is read then.
    /// - `Read` with the error of a read
    pub fn get(&self, key: &[u8]) -> Result<Option<ShortBytes>, FileError> {
        Ok(self.table.get(key)?.map(ShortBytes))
    }

    /// Like [`get`](FileTable::get), and also returns how many groups of sixteen control bytes it
    /// read.
    ///
    /// # Errors
    ///
    /// Those of [`get`](FileTable::get).
    pub fn get_counted(&self, key: &[u8]) -> Result<(Option<ShortBytes>, usize), FileError> {
        let (value, groups) = self.table.get_counted(key)?;
        Ok((value.map(ShortBytes), groups))
    }

    /// Returns `true` if the key has a value. It reads what [`get`](FileTable::get) reads.
    ///
    /// # Errors
    ///
    /// Those of `get`.
    pub fn contains_key(&self, key: &[u8]) -> Result<bool, FileError> {
        self.table.contains_key(key)
    }
}
