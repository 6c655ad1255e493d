//! Replaces Rattle's `std::vec`: a vector whose growth may fail.

mod traits;

use crate::alloc::{AllocError, AllocFailed, Global, grown, release};
use core::ops::RangeBounds;

pub use std::vec::IntoIter;

/// A vector. Its growth may fail, and is limited by the memory budget.
#[derive(PartialEq, Eq, PartialOrd, Ord, Hash)]
pub struct Vec<T>(std::vec::Vec<T>);

impl<T> Vec<T> {
    /// Returns an empty vector without allocating.
    #[inline]
    pub fn new(_alloc: Global) -> Vec<T> {
        Vec(std::vec::Vec::new())
    }

    /// Returns an empty vector with room for at least `capacity` values.
    ///
    /// # Errors
    ///
    /// Returns `AllocError` if memory runs out.
    pub fn with_capacity(alloc: Global, capacity: usize) -> Result<Vec<T>, AllocError> {
        let mut values = Vec::new(alloc);
        values.reserve(capacity)?;
        Ok(values)
    }

    /// Returns a vector of copies of `items`.
    ///
    /// # Errors
    ///
    /// Returns `AllocError` if memory runs out.
    pub fn from_slice(alloc: Global, items: &[T]) -> Result<Vec<T>, AllocError>
    where
        T: Copy,
    {
        let mut copies = Vec::new(alloc);
        copies.extend_from_slice(items)?;
        Ok(copies)
    }

    /// Returns the values as a vector of Rust's standard library, which the budget does not count.
    pub fn into_std(mut self) -> std::vec::Vec<T> {
        release(self.0.capacity().wrapping_mul(size_of::<T>()));
        self.take_claimed()
    }

    /// Returns the values as a vector of Rust's standard library, and leaves this vector empty. The
    /// bytes of the values remain claimed.
    pub(crate) fn take_claimed(&mut self) -> std::vec::Vec<T> {
        core::mem::take(&mut self.0)
    }

    /// Returns a vector of `values`, whose bytes must have been claimed.
    pub(crate) fn from_claimed(values: std::vec::Vec<T>) -> Vec<T> {
        Vec(values)
    }

    /// Makes room for `additional` more values in a new allocation.
    #[cold]
    fn grow(&mut self, additional: usize) -> Result<(), AllocError> {
        let (len, size) = (self.0.len(), size_of::<T>());
        let before = self.0.capacity();
        let capacity = grown(len, before, additional, size)?;
        let done = self.0.try_reserve_exact(capacity - len);
        // The allocation may fail, and Rust may allocate more than requested. Claimed bytes that
        // were not allocated are released.
        let after = self.0.capacity();
        release(capacity.saturating_sub(after) * size);
        done.map_err(|_| AllocError)
    }

    /// Makes room for `additional` more values.
    ///
    /// # Errors
    ///
    /// Returns `AllocError` if memory runs out. In this case, the vector is unchanged.
    #[inline]
    pub fn reserve(&mut self, additional: usize) -> Result<(), AllocError> {
        if additional <= self.0.capacity() - self.0.len() {
            return Ok(());
        }
        self.grow(additional)
    }

    /// Returns the allocator of the vector.
    pub fn allocator(&self) -> &Global {
        &Global
    }

    /// Returns the number of values that the vector can contain without a new allocation.
    #[inline]
    pub fn capacity(&self) -> usize {
        self.0.capacity()
    }

    /// Returns the values as a slice.
    #[inline]
    pub fn as_slice(&self) -> &[T] {
        &self.0
    }

    /// Appends `value` to the vector.
    ///
    /// # Errors
    ///
    /// Returns `AllocFailed` with the value if memory runs out. In this case, the vector is
    /// unchanged.
    #[inline]
    pub fn push(&mut self, value: T) -> Result<(), AllocFailed<T>> {
        if self.0.len() == self.0.capacity() && self.grow(1).is_err() {
            return Err(AllocFailed { value });
        }
        self.0.push(value);
        Ok(())
    }

    /// Removes the last value and returns it, or returns `None` if the vector is empty.
    #[inline]
    pub fn pop(&mut self) -> Option<T> {
        self.0.pop()
    }

    /// Inserts `element` before the value at `index`, or at the end if `index` is the length.
    ///
    /// # Errors
    ///
    /// Returns `AllocFailed` with `element` if memory runs out. In this case, the vector is
    /// unchanged.
    ///
    /// # Panics
    ///
    /// Panics if `index` is greater than the length.
    pub fn insert(&mut self, index: usize, element: T) -> Result<(), AllocFailed<T>> {
        if self.reserve(1).is_err() {
            return Err(AllocFailed { value: element });
        }
        self.0.insert(index, element);
        Ok(())
    }

    /// Removes all values. The capacity remains.
    #[inline]
    pub fn clear(&mut self) {
        self.0.clear();
    }

    /// Removes all values except the first `n`. Does nothing if the vector has at most `n` values.
    #[inline]
    pub fn truncate(&mut self, n: usize) {
        self.0.truncate(n);
    }

    /// Removes each value that is equal to the preceding value.
    pub fn dedup(&mut self)
    where
        T: PartialEq,
    {
        self.0.dedup();
    }

    /// Changes the length of the vector to `n`: removes values from the end, or appends copies of
    /// `value`.
    ///
    /// # Errors
    ///
    /// Returns `AllocError` if memory runs out. In this case, the vector is unchanged.
    #[inline]
    pub fn resize(&mut self, n: usize, value: T) -> Result<(), AllocError>
    where
        T: core::clone::Clone,
    {
        self.reserve(n.saturating_sub(self.0.len()))?;
        self.0.resize(n, value);
        Ok(())
    }

    /// Moves all values of `other` to the end of this vector. Leaves `other` empty.
    ///
    /// # Errors
    ///
    /// Returns `AllocError` if memory runs out. In this case, both vectors are unchanged.
    pub fn append(&mut self, other: &mut Vec<T>) -> Result<(), AllocError> {
        self.reserve(other.len())?;
        self.0.append(&mut other.0);
        Ok(())
    }

    /// Removes the values from the index `at` on, and returns them in a new vector.
    ///
    /// # Errors
    ///
    /// Returns `AllocError` if memory runs out. In this case, the vector is unchanged.
    ///
    /// # Panics
    ///
    /// Panics if `at` is greater than the length.
    pub fn split_off(&mut self, at: usize) -> Result<Vec<T>, AllocError> {
        let mut rest = Vec::with_capacity(Global, self.0.len() - at)?;
        rest.0.extend(self.0.drain(at..));
        Ok(rest)
    }

    /// Appends copies of the values of `other` to the vector.
    ///
    /// # Errors
    ///
    /// Returns `AllocError` if memory runs out. In this case, the vector is unchanged.
    #[inline]
    pub fn extend_from_slice(&mut self, other: &[T]) -> Result<(), AllocError>
    where
        T: Copy,
    {
        self.reserve(other.len())?;
        self.0.extend_from_slice(other);
        Ok(())
    }

    /// Appends the items of an iterator to the vector.
    ///
    /// # Errors
    ///
    /// Returns `AllocError` if memory runs out. In this case, the items before the failure have
    /// been appended.
    pub fn extend<I: IntoIterator<Item = T>>(&mut self, items: I) -> Result<(), AllocError> {
        let items = items.into_iter();
        self.reserve(items.size_hint().0)?;
        for value in items {
            self.push(value)?;
        }
        Ok(())
    }

    /// Replaces the values at the indices in `range` with `items`, and returns an iterator over the
    /// replaced values.
    ///
    /// # Errors
    ///
    /// Returns `AllocError` if memory runs out. In this case, the vector is unchanged.
    ///
    /// # Panics
    ///
    /// Panics if the start of the range is greater than its end, or the end is greater than the
    /// length of the vector.
    pub fn splice<R: RangeBounds<usize>, I: IntoIterator<Item = T>>(
        &mut self,
        range: R,
        items: I,
    ) -> Result<IntoIter<T>, AllocError> {
        let range = (range.start_bound().cloned(), range.end_bound().cloned());
        let mut new = Vec::new(Global);
        new.extend(items)?;
        let mut removed = Vec::with_capacity(Global, self.0[range].len())?;
        self.reserve(new.len())?;
        // There is room for all, so that Rust's `splice` allocates nothing.
        removed.0.extend(self.0.splice(range, new.into_std()));
        Ok(removed.into_iter())
    }
}

impl<T> Drop for Vec<T> {
    #[inline]
    fn drop(&mut self) {
        release(self.0.capacity().wrapping_mul(size_of::<T>()));
    }
}
