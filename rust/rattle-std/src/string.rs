//! Replaces Rattle's `std::string`: a text whose growth may fail.

use crate::alloc::{AllocError, Global, grown, release};
use crate::clone::Clone;
use crate::vec::Vec;
use core::borrow::Borrow;
use core::fmt;
use core::ops::Deref;
use core::str::Utf8Error;

/// A text in UTF-8. Its growth may fail, and is limited by the memory budget.
#[derive(PartialEq, Eq, PartialOrd, Ord, Hash)]
pub struct String(std::string::String);

impl String {
    /// Returns an empty text without allocating.
    #[inline]
    pub fn new(_alloc: Global) -> String {
        String(std::string::String::new())
    }

    /// Returns a copy of `s`.
    ///
    /// # Errors
    ///
    /// Returns `AllocError` if memory runs out.
    #[allow(clippy::should_implement_trait)]
    pub fn from_str(alloc: Global, s: &str) -> Result<String, AllocError> {
        let mut copy = String::new(alloc);
        copy.push_str(s)?;
        Ok(copy)
    }

    /// Returns the text that consists of `bytes`, without copying the bytes.
    ///
    /// # Errors
    ///
    /// Returns `FromUtf8Error` with the bytes if they are not UTF-8.
    pub fn from_utf8(mut bytes: Vec<u8>) -> Result<String, FromUtf8Error> {
        match std::string::String::from_utf8(bytes.take_claimed()) {
            Ok(text) => Ok(String(text)),
            Err(error) => Err(FromUtf8Error {
                error: error.utf8_error(),
                bytes: Vec::from_claimed(error.into_bytes()),
            }),
        }
    }

    /// Makes room for `additional` more bytes in a new allocation.
    #[cold]
    fn grow(&mut self, additional: usize) -> Result<(), AllocError> {
        let before = self.0.capacity();
        let capacity = grown(self.0.len(), before, additional, 1)?;
        let done = self.0.try_reserve_exact(capacity - self.0.len());
        release(capacity.saturating_sub(self.0.capacity()));
        done.map_err(|_| AllocError)
    }

    /// Makes room for `additional` more bytes.
    ///
    /// # Errors
    ///
    /// Returns `AllocError` if memory runs out.
    #[inline]
    pub fn reserve(&mut self, additional: usize) -> Result<(), AllocError> {
        if additional <= self.0.capacity() - self.0.len() {
            return Ok(());
        }
        self.grow(additional)
    }

    /// Returns the allocator of the text.
    pub fn allocator(&self) -> &Global {
        &Global
    }

    /// Appends `string` to the text.
    ///
    /// # Errors
    ///
    /// Returns `AllocError` if memory runs out. In this case, the text is unchanged.
    #[inline]
    pub fn push_str(&mut self, string: &str) -> Result<(), AllocError> {
        self.reserve(string.len())?;
        self.0.push_str(string);
        Ok(())
    }

    /// Appends the character `ch` to the text.
    ///
    /// # Errors
    ///
    /// Returns `AllocError` if memory runs out. In this case, the text is unchanged.
    #[inline]
    pub fn push(&mut self, ch: char) -> Result<(), AllocError> {
        self.reserve(ch.len_utf8())?;
        self.0.push(ch);
        Ok(())
    }

    /// Removes the last character and returns it, or returns `None` if the text is empty.
    pub fn pop(&mut self) -> Option<char> {
        self.0.pop()
    }

    /// Removes all bytes except the first `n`. Does nothing if the text has at most `n` bytes.
    ///
    /// # Panics
    ///
    /// Panics if `n` is inside a character.
    pub fn truncate(&mut self, n: usize) {
        self.0.truncate(n);
    }

    /// Removes all characters. The capacity remains.
    pub fn clear(&mut self) {
        self.0.clear();
    }

    /// Returns the text as a `str`.
    #[inline]
    pub fn as_str(&self) -> &str {
        &self.0
    }

    /// Returns the bytes of the text, without copying the bytes.
    pub fn into_bytes(mut self) -> Vec<u8> {
        Vec::from_claimed(core::mem::take(&mut self.0).into_bytes())
    }

    /// Appends the formatted text `text`. Called by `write!`.
    ///
    /// # Errors
    ///
    /// Returns `AllocError` if memory runs out or formatting fails. In this case, a part of the
    /// text may have been appended.
    pub fn write_fmt(&mut self, text: fmt::Arguments<'_>) -> Result<(), AllocError> {
        fmt::Write::write_fmt(self, text).map_err(|_| AllocError)
    }
}

impl fmt::Write for String {
    fn write_str(&mut self, text: &str) -> fmt::Result {
        Ok(self.push_str(text)?)
    }
}

impl Drop for String {
    #[inline]
    fn drop(&mut self) {
        release(self.0.capacity());
    }
}

impl Deref for String {
    type Target = str;

    #[inline]
    fn deref(&self) -> &str {
        &self.0
    }
}

impl Borrow<str> for String {
    fn borrow(&self) -> &str {
        &self.0
    }
}

impl fmt::Display for String {
    fn fmt(&self, f: &mut fmt::Formatter<'_>) -> fmt::Result {
        self.0.fmt(f)
    }
}

impl fmt::Debug for String {
    fn fmt(&self, f: &mut fmt::Formatter<'_>) -> fmt::Result {
        self.0.fmt(f)
    }
}

impl Clone for String {
    fn clone(&self) -> Result<String, AllocError> {
        String::from_str(Global, self)
    }
}

/// The error of [`String::from_utf8`]. Contains the bytes that are not UTF-8.
#[derive(Debug)]
pub struct FromUtf8Error {
    bytes: Vec<u8>,
    error: Utf8Error,
}

impl FromUtf8Error {
    /// Returns Rust's own error, which contains the offset of the first invalid byte.
    pub fn utf8_error(&self) -> Utf8Error {
        self.error
    }

    /// Returns the bytes that are not UTF-8.
    pub fn into_bytes(self) -> Vec<u8> {
        self.bytes
    }
}
