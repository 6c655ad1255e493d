//! A set whose values are numbered in the order in which they were added.

use super::Entries;
use crate::alloc::{AllocError, AllocFailed, Global};
use crate::vec::IntoIter;
use core::borrow::Borrow;
use core::fmt;
use core::hash::Hash;
use core::slice::Iter;

/// A set whose values are numbered in the order in which they were added.
pub struct IndexSet<T>(Entries<T>);

impl<T: Eq + Hash> IndexSet<T> {
    /// Returns an empty set.
    pub fn new(alloc: Global) -> IndexSet<T> {
        IndexSet(Entries::new(alloc))
    }

    /// Returns the allocator of the set.
    pub fn allocator(&self) -> &Global {
        &Global
    }

    /// Makes room for `additional` new values.
    ///
    /// # Errors
    ///
    /// Returns `AllocError` if memory runs out.
    pub fn reserve(&mut self, additional: usize) -> Result<(), AllocError> {
        self.0.reserve(additional)
    }

    /// Returns the number of values.
    #[inline]
    pub fn len(&self) -> usize {
        self.0.list.len()
    }

    /// Returns whether the set has no values.
    pub fn is_empty(&self) -> bool {
        self.0.list.is_empty()
    }

    /// Returns the values as a slice, in the order of their indices.
    #[inline]
    pub fn as_slice(&self) -> &[T] {
        &self.0.list
    }

    /// Returns an iterator over the values, in the order of their indices.
    pub fn iter(&self) -> Iter<'_, T> {
        self.0.list.iter()
    }

    /// Returns the value at the index `index`, or `None` if the index is out of bounds.
    #[inline]
    pub fn get_index(&self, index: usize) -> Option<&T> {
        self.0.list.get(index)
    }

    /// Returns the index of `value`, or `None` if the set does not have the value.
    #[inline]
    pub fn get_index_of<Q: ?Sized + Eq + Hash>(&self, value: &Q) -> Option<usize>
    where
        T: Borrow<Q>,
    {
        let hash = self.0.table.hash_of(value);
        self.0.find(hash, |it| it.borrow() == value)
    }

    /// Returns whether the set contains `value`.
    pub fn contains<Q: ?Sized + Eq + Hash>(&self, value: &Q) -> bool
    where
        T: Borrow<Q>,
    {
        self.get_index_of(value).is_some()
    }

    /// Adds `value` to the set unless the set contains an equal value. Returns whether `value` was
    /// added.
    ///
    /// # Errors
    ///
    /// Returns `AllocFailed` with the value if memory runs out. In this case, the set is unchanged.
    pub fn insert(&mut self, value: T) -> Result<bool, AllocFailed<T>> {
        Ok(self.insert_full(value)?.1)
    }

    /// Adds `value` to the set unless the set contains an equal value. Returns the index of the
    /// value in the set, and whether `value` was added.
    ///
    /// # Errors
    ///
    /// Returns `AllocFailed` with the value if memory runs out. In this case, the set is unchanged.
    #[inline]
    pub fn insert_full(&mut self, value: T) -> Result<(usize, bool), AllocFailed<T>> {
        let hash = self.0.table.hash_of(&value);
        match self.0.find(hash, |it| *it == value) {
            Some(index) => Ok((index, false)),
            None => Ok((self.0.push(hash, value)?, true)),
        }
    }

    /// Removes all values.
    pub fn clear(&mut self) {
        self.0.list.clear();
        self.0.table.clear();
    }

    /// Removes all values except the first `len`. Does nothing if the set has at most `len` values.
    pub fn truncate(&mut self, len: usize) {
        for index in (len..self.len()).rev() {
            let hash = self.0.table.hash_of(&self.0.list[index]);
            self.0.table.remove(hash, index);
        }
        self.0.list.truncate(len);
    }
}

impl<T: fmt::Debug> fmt::Debug for IndexSet<T> {
    fn fmt(&self, f: &mut fmt::Formatter<'_>) -> fmt::Result {
        f.debug_set().entries(self).finish()
    }
}

impl<'v, T> IntoIterator for &'v IndexSet<T> {
    type Item = &'v T;
    type IntoIter = Iter<'v, T>;

    fn into_iter(self) -> Iter<'v, T> {
        self.0.list.iter()
    }
}

impl<T> IntoIterator for IndexSet<T> {
    type Item = T;
    type IntoIter = IntoIter<T>;

    fn into_iter(self) -> IntoIter<T> {
        self.0.list.into_iter()
    }
}
