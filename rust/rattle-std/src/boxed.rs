//! Replaces Rattle's `std::boxed`: boxes whose allocation may fail.

use crate::alloc::{AllocError, AllocFailed, Global, claim, release};
use crate::clone::Clone;
use core::fmt;
use core::ops::{Deref, DerefMut};

/// A value in an allocation of its own.
///
/// Stable Rust can allocate vectors fallibly, but not boxes. Therefore, a vector with one value is
/// allocated, and converted to a box of an array with one value. The field is `Some` until
/// [`Box::into_inner`] is called.
#[derive(PartialEq, Eq, PartialOrd, Ord, Hash)]
pub struct Box<T>(Option<std::boxed::Box<[T; 1]>>);

impl<T> Box<T> {
    /// Moves `value` to a new allocation, and returns a box that contains the value.
    ///
    /// # Errors
    ///
    /// Returns `AllocFailed` with the value if memory runs out.
    #[inline]
    pub fn new(_alloc: Global, value: T) -> Result<Box<T>, AllocFailed<T>> {
        let size = size_of::<T>();
        if claim(size).is_err() {
            return Err(AllocFailed { value });
        }
        let mut one = std::vec::Vec::new();
        if one.try_reserve_exact(1).is_err() {
            release(size);
            return Err(AllocFailed { value });
        }
        one.push(value);
        match <std::boxed::Box<[T; 1]>>::try_from(one) {
            Ok(boxed) => Ok(Box(Some(boxed))),
            Err(_) => unreachable!(),
        }
    }

    /// Returns the value in the box, and releases the allocation of the box.
    #[inline]
    pub fn into_inner(mut boxed: Box<T>) -> T {
        release(size_of::<T>());
        match boxed.0.take() {
            Some(array) => {
                let [value] = *array;
                value
            }
            None => unreachable!(),
        }
    }
}

impl<T> Drop for Box<T> {
    #[inline]
    fn drop(&mut self) {
        if self.0.is_some() {
            release(size_of::<T>());
        }
    }
}

impl<T> Deref for Box<T> {
    type Target = T;

    #[inline]
    fn deref(&self) -> &T {
        match &self.0 {
            Some(array) => &array[0],
            None => unreachable!(),
        }
    }
}

impl<T> DerefMut for Box<T> {
    #[inline]
    fn deref_mut(&mut self) -> &mut T {
        match &mut self.0 {
            Some(array) => &mut array[0],
            None => unreachable!(),
        }
    }
}

impl<T: fmt::Debug> fmt::Debug for Box<T> {
    fn fmt(&self, f: &mut fmt::Formatter<'_>) -> fmt::Result {
        (**self).fmt(f)
    }
}

impl<T: Clone> Clone for Box<T> {
    fn clone(&self) -> Result<Box<T>, AllocError> {
        Ok(Box::new(Global, (**self).clone()?)?)
    }
}
