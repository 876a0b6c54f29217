//! Index expressions that are proved to be in bounds.
//!
//! `tools/erase` writes `index!` in the functions that its plan lists, with the proved clause from which the index is in
//! bounds. By default such an index is not checked, and debug builds assert it. With the feature `checked` it is
//! `list[index]`, with the check of Rust. Every other index of the crate is always checked.

/// `list[index]`, to be read, where the clause holds.
#[cfg(feature = "checked")]
macro_rules! index {
    ($($list:ident).+ [$index:expr], $clause:literal) => {
        $($list).+[$index]
    };
}

/// `list[index]`, to be written, where the clause holds.
#[cfg(feature = "checked")]
macro_rules! index_mut {
    ($($list:ident).+ [$index:expr], $clause:literal) => {
        $($list).+[$index]
    };
}

/// `list[number * len..number * len + len]`, to be read, where the clause holds.
#[cfg(feature = "checked")]
macro_rules! chunk {
    ($list:ident, $number:ident, $len:ident, $clause:literal) => {
        $list[$number * $len..$number * $len + $len]
    };
}

/// `list.split_at_mut(index)`, where the clause holds.
#[cfg(feature = "checked")]
macro_rules! split_at_mut {
    ($list:ident, $index:expr, $clause:literal) => {
        $list.split_at_mut($index)
    };
}

/// `list[index]`, to be read, where the clause holds.
#[cfg(not(feature = "checked"))]
macro_rules! index {
    ($($list:ident).+ [$index:expr], $clause:literal) => {
        // SAFETY: the index is in bounds by the clause. It is a condition of the function, or the invariant of its
        // type, and it is proved wherever the function is called and the type is made. The slot counts that it is
        // about come from `shim::slots::check`; lengths of slices cannot change; no code of a user has a part in it.
        *(match $index {
            index => unsafe { $crate::shim::index::at(&$($list).+[..], index, $clause) },
        })
    };
}

/// `list[index]`, to be written, where the clause holds.
#[cfg(not(feature = "checked"))]
macro_rules! index_mut {
    ($($list:ident).+ [$index:expr], $clause:literal) => {
        // SAFETY: as in `index!`.
        *(match $index {
            index => unsafe { $crate::shim::index::at_mut(&mut $($list).+[..], index, $clause) },
        })
    };
}

/// `list[number * len..number * len + len]`, to be read, where the clause holds.
#[cfg(not(feature = "checked"))]
macro_rules! chunk {
    ($list:ident, $number:ident, $len:ident, $clause:literal) => {
        // SAFETY: as in `index!`.
        *unsafe { $crate::shim::index::chunk($list, $number, $len, $clause) }
    };
}

/// `list.split_at_mut(index)`, where the clause holds.
#[cfg(not(feature = "checked"))]
macro_rules! split_at_mut {
    ($list:ident, $index:expr, $clause:literal) => {
        match $index {
            // SAFETY: as in `index!`.
            index => unsafe { $crate::shim::index::split_at_mut(&mut $list[..], index, $clause) },
        }
    };
}

#[cfg(not(feature = "checked"))]
pub(crate) use unchecked::{at, at_mut, chunk, split_at_mut};

#[cfg(not(feature = "checked"))]
#[allow(unsafe_code)]
mod unchecked {
    use std::slice::SliceIndex;

    /// `&list[index]`.
    ///
    /// # Safety
    ///
    /// The index is in bounds. `clause` says by what.
    #[inline(always)]
    #[track_caller]
    pub(crate) unsafe fn at<'l, T, I: SliceIndex<[T]> + Clone>(
        list: &'l [T],
        index: I,
        clause: &str,
    ) -> &'l I::Output {
        debug_assert!(
            list.get(index.clone()).is_some(),
            "out of bounds, against the clause: {clause}"
        );
        // SAFETY: the caller ensures that the index is in bounds.
        unsafe { list.get_unchecked(index) }
    }

    /// `&mut list[index]`.
    ///
    /// # Safety
    ///
    /// The index is in bounds. `clause` says by what.
    #[inline(always)]
    #[track_caller]
    pub(crate) unsafe fn at_mut<'l, T, I: SliceIndex<[T]> + Clone>(
        list: &'l mut [T],
        index: I,
        clause: &str,
    ) -> &'l mut I::Output {
        debug_assert!(
            list.get(index.clone()).is_some(),
            "out of bounds, against the clause: {clause}"
        );
        // SAFETY: the caller ensures that the index is in bounds.
        unsafe { list.get_unchecked_mut(index) }
    }

    /// `&list[number * len..number * len + len]`, with `len` a constant where it is called.
    ///
    /// # Safety
    ///
    /// The index is in bounds. `clause` says by what.
    #[inline(always)]
    #[track_caller]
    pub(crate) unsafe fn chunk<'l>(
        list: &'l [u8],
        number: usize,
        len: usize,
        clause: &str,
    ) -> &'l [u8] {
        debug_assert!(
            number.checked_mul(len).and_then(|at| list.get(at..)?.get(..len)).is_some(),
            "out of bounds, against the clause: {clause}"
        );
        // These lengths are 3, 5 or 9 times a power of two. LLVM computes the address of an item of an array with one
        // instruction less than that of the byte at `number * len`. So it does for 12 bytes, but then it places the
        // branches of a search such that an absent key takes a tenth longer.
        macro_rules! item {
            ($($of:literal),*) => {
                match len {
                    $($of => list.as_ptr().cast::<[u8; $of]>().add(number).cast::<u8>(),)*
                    _ => list.as_ptr().add(number * len),
                }
            };
        }
        // SAFETY: the caller ensures that the index is in bounds.
        unsafe { std::slice::from_raw_parts(item!(6, 10, 18, 20, 24, 36, 40, 72), len) }
    }

    /// `list.split_at_mut(index)`.
    ///
    /// # Safety
    ///
    /// The index is at most the length. `clause` says by what.
    #[inline(always)]
    #[track_caller]
    pub(crate) unsafe fn split_at_mut<'l, T>(
        list: &'l mut [T],
        index: usize,
        clause: &str,
    ) -> (&'l mut [T], &'l mut [T]) {
        debug_assert!(index <= list.len(), "out of bounds, against the clause: {clause}");
        // `split_at_mut_unchecked` of std is newer than the Rust that this crate needs.
        let rest = list.len().wrapping_sub(index);
        let start = list.as_mut_ptr();
        // SAFETY: the caller ensures that the index is in bounds, so the two slices are parts of the list, and apart.
        unsafe {
            (
                std::slice::from_raw_parts_mut(start, index),
                std::slice::from_raw_parts_mut(start.add(index), rest),
            )
        }
    }
}
