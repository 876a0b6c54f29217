// Generated from crates/odht_base/src/bytes/stores.rt by make generate.
//! Stores of bytes, which hold tables.

use alloc::vec::Vec;

/// A store of bytes.
pub trait ByteStore {
    /// All of its bytes.
    fn bytes(&self) -> &[u8];
}

/// A store whose bytes can be overwritten.
///
/// In a contract the ghost member `holding` is the store with other bytes. So after a borrow of
/// the store its owner knows which bytes it holds. Three laws say that a write changes nothing but
/// the bytes: the store then holds the bytes that were written (`held`), of several writes of all
/// bytes only the last one matters (`held_last`), and with the bytes that it has already the store
/// is unchanged (`held_same`). `after_borrow` is the store after a borrow of its bytes; where
/// these are as many as before, the store holds exactly these (`after_borrow_fits`).
///
/// So whatever a store keeps beside its bytes must not change on a write. A count of the writes,
/// say, has to be left out of the store's `Model`.
pub trait ByteStoreMut: ByteStore {
    /// All of its bytes, to be written. After the borrow the store holds the bytes that were left
    /// in the slice.
    fn bytes_mut(&mut self) -> &mut [u8];

    /// Writes `data` from the byte `at` on. No other byte changes.
    #[inline(always)]
    fn write_at(&mut self, at: usize, data: &[u8]) {
        write_slice(self.bytes_mut(), at, data)
    }
}

// A borrowed store: what is written to it is written to the store itself.
impl<M: ByteStore> ByteStore for &mut M {
    #[inline(always)]
    fn bytes(&self) -> &[u8] {
        M::bytes(&**self)
    }
}

impl<M: ByteStoreMut> ByteStoreMut for &mut M {
    #[inline(always)]
    fn bytes_mut(&mut self) -> &mut [u8] {
        M::bytes_mut(&mut **self)
    }
}

/// A store that borrows a slice to read it.
#[derive(Clone, Copy)]
pub struct Borrowed<'a>(pub &'a [u8]);

impl<'a> Borrowed<'a> {
    /// The store of `bytes`.
    #[inline]
    pub fn new(bytes: &'a [u8]) -> Self {
        Borrowed(bytes)
    }
}

impl ByteStore for Borrowed<'_> {
    #[inline]
    fn bytes(&self) -> &[u8] {
        self.0
    }
}

/// A store that borrows a slice to read and write it.
pub struct BorrowedMut<'a>(pub &'a mut [u8]);

impl<'a> BorrowedMut<'a> {
    /// The store of `bytes`: what is written to it is written to the slice.
    #[inline]
    pub fn new(bytes: &'a mut [u8]) -> Self {
        BorrowedMut(bytes)
    }

    /// The slice itself, with the bytes as they are now.
    #[inline]
    pub fn into_slice(self) -> &'a mut [u8] {
        let BorrowedMut(bytes) = self;
        bytes
    }
}

impl ByteStore for BorrowedMut<'_> {
    #[inline]
    fn bytes(&self) -> &[u8] {
        self.0
    }
}

impl ByteStoreMut for BorrowedMut<'_> {
    #[inline(always)]
    fn bytes_mut(&mut self) -> &mut [u8] {
        &mut *self.0
    }
}

/// A store that owns a vector.
pub struct OwnedBytes(Vec<u8>);

impl OwnedBytes {
    /// The store of `bytes`.
    #[inline]
    pub fn new(bytes: Vec<u8>) -> Self {
        OwnedBytes(bytes)
    }

    /// The vector itself, with the bytes as they are now.
    #[inline]
    pub fn into_vec(self) -> Vec<u8> {
        let OwnedBytes(bytes) = self;
        bytes
    }
}

impl ByteStore for OwnedBytes {
    #[inline]
    fn bytes(&self) -> &[u8] {
        self.0.as_slice()
    }
}

impl ByteStoreMut for OwnedBytes {
    #[inline(always)]
    fn bytes_mut(&mut self) -> &mut [u8] {
        self.0.as_mut_slice()
    }
}

/// Writes `piece` into the slice from the byte `at` on. No other byte changes.
#[inline(always)]
pub fn write_slice(all: &mut [u8], at: usize, piece: &[u8]) {
    let target =
        &mut index_mut!(all[at..at + piece.len()], "at + length piece.now ≤ length all.old");
    // A piece of 1, 2, 4, 8 or 16 bytes is copied as an array.
    match piece.len() {
        1 => overwrite_array::<1>(target, piece),
        2 => overwrite_array::<2>(target, piece),
        4 => overwrite_array::<4>(target, piece),
        8 => overwrite_array::<8>(target, piece),
        16 => overwrite_array::<16>(target, piece),
        _ => target.copy_from_slice(piece),
    }
}

// Writes `piece` over the whole slice, of `N` bytes, as an array.
#[inline(always)]
fn overwrite_array<const N: usize>(target: &mut [u8], piece: &[u8]) {
    let (Some(to), Some(from)) = (target.first_chunk_mut::<N>(), piece.first_chunk::<N>()) else {
        unreachable!()
    };
    *to = *from;
}
