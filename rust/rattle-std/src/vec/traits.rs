//! The implementations of traits for vectors.

use super::{IntoIter, Vec};
use crate::alloc::{AllocError, Global};
use crate::clone::Clone;
use core::borrow::Borrow;
use core::fmt;
use core::ops::{Deref, DerefMut, Index, IndexMut};
use core::slice::{Iter, IterMut, SliceIndex};

impl<T> Deref for Vec<T> {
    type Target = [T];

    #[inline]
    fn deref(&self) -> &[T] {
        &self.0
    }
}

impl<T> DerefMut for Vec<T> {
    #[inline]
    fn deref_mut(&mut self) -> &mut [T] {
        &mut self.0
    }
}

impl<T, I: SliceIndex<[T]>> Index<I> for Vec<T> {
    type Output = I::Output;

    #[inline]
    fn index(&self, index: I) -> &I::Output {
        &self.0[index]
    }
}

impl<T, I: SliceIndex<[T]>> IndexMut<I> for Vec<T> {
    #[inline]
    fn index_mut(&mut self, index: I) -> &mut I::Output {
        &mut self.0[index]
    }
}

impl<T: fmt::Debug> fmt::Debug for Vec<T> {
    fn fmt(&self, f: &mut fmt::Formatter<'_>) -> fmt::Result {
        self.0.fmt(f)
    }
}

impl<T: Clone> Clone for Vec<T> {
    fn clone(&self) -> Result<Vec<T>, AllocError> {
        let mut copies = Vec::with_capacity(Global, self.len())?;
        for value in self {
            copies.0.push(value.clone()?);
        }
        Ok(copies)
    }
}

impl<T> Borrow<[T]> for Vec<T> {
    fn borrow(&self) -> &[T] {
        &self.0
    }
}

impl<'v, T> IntoIterator for &'v Vec<T> {
    type Item = &'v T;
    type IntoIter = Iter<'v, T>;

    #[inline]
    fn into_iter(self) -> Iter<'v, T> {
        self.0.iter()
    }
}

impl<'v, T> IntoIterator for &'v mut Vec<T> {
    type Item = &'v mut T;
    type IntoIter = IterMut<'v, T>;

    #[inline]
    fn into_iter(self) -> IterMut<'v, T> {
        self.0.iter_mut()
    }
}

impl<T> IntoIterator for Vec<T> {
    type Item = T;
    type IntoIter = IntoIter<T>;

    #[inline]
    fn into_iter(self) -> IntoIter<T> {
        self.into_std().into_iter()
    }
}
