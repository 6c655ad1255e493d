//! Defines the system on which the programs run in a page. The system has two texts as files, an
//! empty standard input, no clock and no environment variables.

use logos_build::logos_host::{ComparableFiles, FileError, Files, Occurrence, Reason};
use rattle_std::alloc::{AllocError, Global};
use rattle_std::env::{Env, FillError};
use rattle_std::io::{self, ErrorKind, Input, Read};
use rattle_std::time::{Clock, Duration};
use rattle_std::vec::Vec;

/// The path of the source.
const SOURCE: &str = "lexer.rs";

/// The path of the input.
const INPUT: &str = "text";

/// The source and the input as files that cannot be written.
pub struct Texts<'t> {
    /// The bytes of the source.
    pub source: &'t [u8],
    /// The bytes of the input.
    pub input: &'t [u8],
}

impl Files for Texts<'_> {
    fn read(&mut self, path: &str) -> Result<Vec<u8>, FileError> {
        let bytes = match path {
            SOURCE => self.source,
            INPUT => self.input,
            _ => return Err(FileError::Failed(Reason::Missing)),
        };
        let mut read = Vec::new(Global);
        match read.extend_from_slice(bytes) {
            Ok(()) => Ok(read),
            Err(AllocError) => Err(FileError::Memory),
        }
    }

    fn write(&mut self, _path: &str, _bytes: &[u8]) -> Result<(), FileError> {
        Err(FileError::Failed(Reason::ReadOnly))
    }
}

impl ComparableFiles for Texts<'_> {
    fn compare(&mut self, _path: &str, _bytes: &[u8]) -> Result<Occurrence, AllocError> {
        Ok(Occurrence::Missing)
    }

    fn found_bytes(&self, _path: &str) -> Result<Vec<u8>, AllocError> {
        Ok(Vec::new(Global))
    }

    fn is_same_file(&self, one: &str, other: &str) -> bool {
        one == other
    }
}

/// A system with an empty standard input, without a clock, and without environment variables.
pub struct NoSystem;

impl Clock for NoSystem {
    fn monotonic(&self) -> io::Result<Duration> {
        Err(io::Error::from(ErrorKind::Unsupported))
    }
}

impl Input for NoSystem {
    type Reader = Empty;

    fn reader(&self) -> Empty {
        Empty
    }
}

impl Env for NoSystem {
    fn arg(&self, _i: usize, _buf: &mut [u8]) -> Result<usize, FillError> {
        Err(FillError::NotPresent)
    }

    fn var(&self, _name: &str, _buf: &mut [u8]) -> Result<usize, FillError> {
        Err(FillError::NotPresent)
    }
}

/// A reader that is always at the end of its input.
pub struct Empty;

impl Read for Empty {
    fn read(&mut self, _buf: &mut [u8]) -> io::Result<usize> {
        Ok(0)
    }
}
