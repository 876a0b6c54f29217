//! Shorter calls for sets, which have no values.

use crate::builder::Builder;
use crate::error::Error;
use crate::shape::Shape;
use crate::table_mut::TableMut;

impl<S: Shape<Value = ()>> TableMut<'_, S> {
    /// Inserts a key into the set, and returns whether it was new.
    ///
    /// # Errors
    ///
    /// The errors of [`TableMut::insert`].
    ///
    /// ```
    /// # fn main() -> Result<(), odht_ffi::Error> {
    /// let mut bytes = odht_ffi::empty_table::<odht_ffi::B16>(100, 87)?;
    /// let mut set = odht_ffi::TableMut::<odht_ffi::B16>::open(&mut bytes)?;
    /// assert!(set.add(&[7; 16])?);
    /// assert!(!set.add(&[7; 16])?);
    /// assert!(set.as_table().contains(&[7; 16]));
    /// # Ok(())
    /// # }
    /// ```
    #[inline]
    pub fn add(&mut self, key: &S::Key) -> Result<bool, Error> {
        self.insert(key, ()).map(|former| former.is_none())
    }

    /// Inserts keys into the set in order, and stops at the first that does not fit. Returns the number of inserted
    /// keys, and whether all were inserted.
    ///
    /// # Errors
    ///
    /// [`Error::Full`] if a key does not fit. The keys before it are in the set.
    pub fn add_all(&mut self, keys: &[S::Key]) -> (usize, Result<(), Error>) {
        // Values of no bytes need no allocation.
        self.insert_all(keys, &vec![(); keys.len()])
    }
}

impl<S: Shape<Value = ()>> Builder<S> {
    /// Adds a key.
    pub fn add(&mut self, key: S::Key) {
        self.push(key, ());
    }

    /// Adds keys.
    pub fn add_all(&mut self, keys: impl IntoIterator<Item = S::Key>) {
        self.extend(keys.into_iter().map(|key| (key, ())));
    }
}
