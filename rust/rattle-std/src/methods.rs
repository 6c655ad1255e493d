//! Methods of Rust's own types that take an allocator in Rattle. In erased files, each of these
//! methods has a different name that is as long as the name in Rattle, such as `list_in` for
//! `collect`. Used by erased files, and by the macros `format` and `vec`.

use crate::alloc::{AllocError, Global};
use crate::string::String;
use crate::vec::Vec;
use core::fmt;

/// An iterator whose items can be collected. Replaces Rattle's `collect`.
pub trait ListIn: Iterator + Sized {
    /// Returns a collection of all items of the iterator.
    ///
    /// # Errors
    ///
    /// Returns `AllocError` if memory runs out. In this case, the items that were taken from the
    /// iterator are lost.
    fn list_in<C: FromItems<Self::Item>>(self, alloc: Global) -> Result<C, AllocError> {
        C::from_items(alloc, self)
    }
}

impl<I: Iterator> ListIn for I {}

/// A collection that can be made from the items of an iterator.
pub trait FromItems<T>: Sized {
    /// Returns a collection of all items of `items`.
    ///
    /// # Errors
    ///
    /// Returns `AllocError` if memory runs out.
    fn from_items<I: Iterator<Item = T>>(alloc: Global, items: I) -> Result<Self, AllocError>;
}

impl<T> FromItems<T> for Vec<T> {
    fn from_items<I: Iterator<Item = T>>(alloc: Global, items: I) -> Result<Vec<T>, AllocError> {
        let mut list = Vec::new(alloc);
        list.extend(items)?;
        Ok(list)
    }
}

impl FromItems<char> for String {
    fn from_items<I: Iterator<Item = char>>(alloc: Global, items: I) -> Result<String, AllocError> {
        let mut text = String::new(alloc);
        for item in items {
            text.push(item)?;
        }
        Ok(text)
    }
}

/// A slice that can be copied to a vector. Replaces Rattle's `to_vec`.
pub trait VecIn<T> {
    /// Returns a vector of copies of the values of the slice.
    ///
    /// # Errors
    ///
    /// Returns `AllocError` if memory runs out.
    fn vec_in(&self, alloc: Global) -> Result<Vec<T>, AllocError>;
}

impl<T: Copy> VecIn<T> for [T] {
    fn vec_in(&self, alloc: Global) -> Result<Vec<T>, AllocError> {
        Vec::from_slice(alloc, self)
    }
}

/// A value that can be formatted as a text. Replaces Rattle's `to_string`.
pub trait StringIn: fmt::Display {
    /// Returns the value formatted as a text.
    ///
    /// # Errors
    ///
    /// Returns `AllocError` if memory runs out.
    fn string_in(&self, alloc: Global) -> Result<String, AllocError> {
        formatted(alloc, format_args!("{self}"))
    }
}

impl<T: fmt::Display + ?Sized> StringIn for T {}

/// A text that can be copied in lower case. Replaces Rattle's `to_ascii_lowercase`.
pub trait AsciiLowercaseIn {
    /// Returns a copy of the text with ASCII letters in lower case.
    ///
    /// # Errors
    ///
    /// Returns `AllocError` if memory runs out.
    fn ascii_lowercase_in(&self, alloc: Global) -> Result<String, AllocError>;
}

impl AsciiLowercaseIn for str {
    fn ascii_lowercase_in(&self, alloc: Global) -> Result<String, AllocError> {
        let mut text = String::new(alloc);
        text.reserve(self.len())?;
        for character in self.chars() {
            text.push(character.to_ascii_lowercase())?;
        }
        Ok(text)
    }
}

/// Returns the formatted text `text`. Called by `format!`.
///
/// # Errors
///
/// Returns `AllocError` if memory runs out.
pub fn formatted(alloc: Global, text: fmt::Arguments<'_>) -> Result<String, AllocError> {
    let mut made = String::new(alloc);
    made.write_fmt(text)?;
    Ok(made)
}

/// Returns a vector of `count` copies of `value`. Called by `vec!`.
///
/// # Errors
///
/// Returns `AllocError` if memory runs out.
pub fn repeated<T: Clone>(alloc: Global, value: T, count: usize) -> Result<Vec<T>, AllocError> {
    let mut values = Vec::new(alloc);
    values.resize(count, value)?;
    Ok(values)
}

/// Returns a vector of `values`. Called by `vec!`.
///
/// # Errors
///
/// Returns `AllocError` if memory runs out.
pub fn listed<T, const N: usize>(alloc: Global, values: [T; N]) -> Result<Vec<T>, AllocError> {
    let mut list = Vec::new(alloc);
    list.extend(values)?;
    Ok(list)
}
