//! Replaces Rattle's `std::env`: the arguments of the program, and environment variables.

use crate::alloc::Global;
use crate::io;
use crate::rt::HostRuntime;
use crate::string::String;
use crate::vec::{IntoIter, Vec};
use std::ffi::OsStr;

/// A system with environment variables and the arguments of the program.
pub trait Env {
    /// Writes the argument at the index `i` to the beginning of `buf`, and returns the length of
    /// the argument in bytes. The argument at the index 0 is the name of the program.
    ///
    /// # Errors
    ///
    /// Returns:
    ///
    /// - `NotPresent` if there is no such argument.
    /// - `TooLong` if the argument is longer than `buf`.
    fn arg(&self, i: usize, buf: &mut [u8]) -> Result<usize, FillError>;

    /// Writes the value of the environment variable `name` to the beginning of `buf`, and returns
    /// the length of the value in bytes.
    ///
    /// # Errors
    ///
    /// Returns `NotPresent` if the variable is not set, or `TooLong` if its value is longer than
    /// `buf`.
    fn var(&self, name: &str, buf: &mut [u8]) -> Result<usize, FillError>;
}

/// The reason why an argument or a value was not written.
#[derive(Clone, Copy, Debug, PartialEq, Eq)]
pub enum FillError {
    /// There is no argument at this index, or no variable with this name.
    NotPresent,
    /// The argument or the value is longer than the buffer.
    TooLong,
}

impl Env for HostRuntime {
    fn arg(&self, i: usize, buf: &mut [u8]) -> Result<usize, FillError> {
        let argument = std::env::args_os().nth(i).ok_or(FillError::NotPresent)?;
        fill(buf, &argument)
    }

    fn var(&self, name: &str, buf: &mut [u8]) -> Result<usize, FillError> {
        let value = std::env::var_os(name).ok_or(FillError::NotPresent)?;
        fill(buf, &value)
    }
}

/// Writes `text` to the beginning of `buf`, and returns the length of `text` in bytes. Returns
/// `TooLong` if `text` is longer than `buf`.
fn fill(buf: &mut [u8], text: &OsStr) -> Result<usize, FillError> {
    let bytes = text.as_encoded_bytes();
    let front = buf.get_mut(..bytes.len()).ok_or(FillError::TooLong)?;
    front.copy_from_slice(bytes);
    Ok(bytes.len())
}

/// Returns an iterator over the arguments of the program, beginning with the name of the program.
///
/// # Errors
///
/// Returns an error of the kind `InvalidData` if an argument is not UTF-8, or an error of the kind
/// `OutOfMemory` if memory runs out.
pub fn args<R: Env>(_rt: &R) -> io::Result<IntoIter<String>> {
    let mut arguments = Vec::new(Global);
    for argument in std::env::args_os() {
        let text = argument.to_str().ok_or(io::ErrorKind::InvalidData)?;
        arguments.push(String::from_str(Global, text)?)?;
    }
    Ok(arguments.into_iter())
}
