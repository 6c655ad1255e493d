//! Replaces Rattle's `std::io`: reading into vectors whose growth may fail, and writing.

mod buffered;
mod error;
mod standard;

use crate::alloc::{AllocError, Global};
use crate::string::String;
use crate::vec::Vec;
use core::fmt;

pub use buffered::BufWriter;
pub use error::{Error, ErrorKind, Result};
pub use standard::{Input, IsTerminal, Print, Stderr, Stdin, Stdout};

/// The minimum number of bytes by which a vector without free capacity is lengthened.
const FIRST_BLOCK: usize = 8192;

/// The maximum number of bytes by which a vector is lengthened at once.
const LARGEST_BLOCK: usize = 1 << 20;

/// A source of bytes.
pub trait Read {
    /// Reads bytes into the beginning of `buf`, and returns the number of bytes read. No bytes are
    /// left if this number is 0 and `buf` is not empty.
    ///
    /// # Errors
    ///
    /// Returns the error that the system reports. In this case, no bytes were read.
    fn read(&mut self, buf: &mut [u8]) -> Result<usize>;

    /// Appends all remaining bytes to `buf`, and returns the number of bytes appended.
    ///
    /// # Errors
    ///
    /// Returns the error that the system reports, or an error of the kind `OutOfMemory` if memory
    /// runs out. In this case, the bytes that were read before the error have been appended.
    fn read_to_end(&mut self, buf: &mut Vec<u8>) -> Result<usize> {
        let start = buf.len();
        let mut end = start;
        let done = loop {
            if end == buf.len()
                && let Err(error) = lengthen(buf)
            {
                break Err(Error::from(error));
            }
            match self.read(&mut buf[end..]) {
                Ok(0) => break Ok(end - start),
                Ok(read) => end += read,
                Err(error) if error.kind() == ErrorKind::Interrupted => {}
                Err(error) => break Err(error),
            }
        };
        buf.truncate(end);
        done
    }

    /// Returns a reader of at most the next `limit` bytes of this reader.
    fn take(self, limit: u64) -> Take<Self>
    where
        Self: Sized,
    {
        Take { inner: self, limit }
    }
}

/// Appends zeros to `buf`, to be replaced with the bytes that are read.
///
/// The number of zeros is the free capacity of `buf`. If there is no free capacity, the number is
/// the length of `buf`, but at least [`FIRST_BLOCK`]. In both cases, the number is at most
/// [`LARGEST_BLOCK`].
fn lengthen(buf: &mut Vec<u8>) -> core::result::Result<(), AllocError> {
    let len = buf.len();
    let room = match buf.capacity() - len {
        0 => len.max(FIRST_BLOCK),
        room => room,
    };
    buf.resize(len + room.min(LARGEST_BLOCK), 0)
}

impl<R: Read + ?Sized> Read for &mut R {
    fn read(&mut self, buf: &mut [u8]) -> Result<usize> {
        (**self).read(buf)
    }
}

impl Read for &[u8] {
    fn read(&mut self, buf: &mut [u8]) -> Result<usize> {
        let (front, rest) = self.split_at(self.len().min(buf.len()));
        buf[..front.len()].copy_from_slice(front);
        *self = rest;
        Ok(front.len())
    }
}

/// A reader of at most `limit` bytes of the reader `inner`.
pub struct Take<R> {
    inner: R,
    limit: u64,
}

impl<R: Read> Read for Take<R> {
    fn read(&mut self, buf: &mut [u8]) -> Result<usize> {
        let most = self.limit.min(buf.len() as u64) as usize;
        if most == 0 {
            return Ok(0);
        }
        let read = self.inner.read(&mut buf[..most])?;
        self.limit -= read as u64;
        Ok(read)
    }
}

/// Returns the remaining bytes of `reader` as a text.
///
/// # Errors
///
/// Returns:
///
/// - The error that the system reports.
/// - An error of the kind `InvalidData` if the text is not UTF-8.
/// - An error of the kind `OutOfMemory` if memory runs out.
pub fn read_to_string<R: Read>(alloc: Global, mut reader: R) -> Result<String> {
    let mut bytes = Vec::new(alloc);
    reader.read_to_end(&mut bytes)?;
    String::from_utf8(bytes).map_err(|_| Error::from(ErrorKind::InvalidData))
}

/// A destination of bytes.
pub trait Write {
    /// Writes bytes from the beginning of `buf`, and returns the number of bytes written.
    ///
    /// # Errors
    ///
    /// Returns the error that the system reports. In this case, no bytes were written.
    fn write(&mut self, buf: &[u8]) -> Result<usize>;

    /// Writes the bytes that are buffered, if any.
    ///
    /// # Errors
    ///
    /// Returns the error that the system reports.
    fn flush(&mut self) -> Result<()>;

    /// Writes all bytes of `buf`.
    ///
    /// # Errors
    ///
    /// Returns the error that the system reports, or an error of the kind `WriteZero` if a call of
    /// `write` writes no bytes. In this case, a part of the bytes may have been written.
    fn write_all(&mut self, mut buf: &[u8]) -> Result<()> {
        while !buf.is_empty() {
            match self.write(buf) {
                Ok(0) => return Err(Error::from(ErrorKind::WriteZero)),
                Ok(written) => buf = &buf[written..],
                Err(error) if error.kind() == ErrorKind::Interrupted => {}
                Err(error) => return Err(error),
            }
        }
        Ok(())
    }

    /// Writes the formatted text `text`. Called by `write!`.
    ///
    /// # Errors
    ///
    /// Returns the error of [`Write::write_all`], or an error of the kind `Other` if formatting
    /// fails. In this case, a part of the text may have been written.
    fn write_fmt(&mut self, text: fmt::Arguments<'_>) -> Result<()> {
        let mut pieces = Pieces {
            to: self,
            error: None,
        };
        match fmt::Write::write_fmt(&mut pieces, text) {
            Ok(()) => Ok(()),
            Err(fmt::Error) => Err(pieces.error.unwrap_or(Error::from(ErrorKind::Other))),
        }
    }
}

/// A formatter that writes formatted text to the writer `to`. `error` is the error of `to`, if
/// there was one.
struct Pieces<'w, W: ?Sized> {
    to: &'w mut W,
    error: Option<Error>,
}

impl<W: Write + ?Sized> fmt::Write for Pieces<'_, W> {
    fn write_str(&mut self, piece: &str) -> fmt::Result {
        self.to.write_all(piece.as_bytes()).map_err(|error| {
            self.error = Some(error);
            fmt::Error
        })
    }
}

impl<W: Write + ?Sized> Write for &mut W {
    fn write(&mut self, buf: &[u8]) -> Result<usize> {
        (**self).write(buf)
    }

    fn flush(&mut self) -> Result<()> {
        (**self).flush()
    }

    fn write_all(&mut self, buf: &[u8]) -> Result<()> {
        (**self).write_all(buf)
    }
}

impl Write for Vec<u8> {
    #[inline]
    fn write(&mut self, buf: &[u8]) -> Result<usize> {
        self.extend_from_slice(buf)?;
        Ok(buf.len())
    }

    fn flush(&mut self) -> Result<()> {
        Ok(())
    }

    #[inline]
    fn write_all(&mut self, buf: &[u8]) -> Result<()> {
        Ok(self.extend_from_slice(buf)?)
    }
}
