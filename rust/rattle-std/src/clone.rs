//! Replaces Rattle's `std::clone`: copies of values. Copying a value fails if memory runs out.
//!
//! In an erased file, `derive(Clone)` derives Rust's `Clone`, and always occurs together with
//! `derive(Copy)`.

use crate::alloc::AllocError;
use crate::rt::HostRuntime;
use core::ops::RangeInclusive;

/// A value that can be copied if memory suffices.
pub trait Clone: Sized {
    /// Returns a copy of the value.
    ///
    /// # Errors
    ///
    /// Returns `AllocError` if memory runs out.
    fn clone(&self) -> Result<Self, AllocError>;
}

macro_rules! copied {
    ($($name:ty)*) => {
        $(impl Clone for $name {
            #[inline]
            fn clone(&self) -> Result<$name, AllocError> {
                Ok(*self)
            }
        })*
    };
}

copied!(bool char u8 u16 u32 u64 usize HostRuntime);

impl<T: ?Sized> Clone for &T {
    #[inline]
    fn clone(&self) -> Result<Self, AllocError> {
        Ok(self)
    }
}

impl<T: Clone> Clone for Option<T> {
    fn clone(&self) -> Result<Option<T>, AllocError> {
        self.as_ref().clones()
    }
}

impl<T: Copy> Clone for RangeInclusive<T> {
    fn clone(&self) -> Result<RangeInclusive<T>, AllocError> {
        Ok(*self.start()..=*self.end())
    }
}

/// An optional reference to a value that can be copied. Replaces Rattle's `cloned`.
pub trait Clones<T> {
    /// Returns a copy of the referenced value, or `None` if there is no reference.
    ///
    /// # Errors
    ///
    /// Returns `AllocError` if memory runs out.
    fn clones(self) -> Result<Option<T>, AllocError>;
}

impl<T: Clone> Clones<T> for Option<&T> {
    fn clones(self) -> Result<Option<T>, AllocError> {
        match self {
            Some(value) => Ok(Some(value.clone()?)),
            None => Ok(None),
        }
    }
}
