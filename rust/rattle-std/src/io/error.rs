//! The errors of files and streams.

use crate::alloc::{AllocError, AllocFailed};
use core::fmt;

/// The result of reading or writing.
pub type Result<T> = core::result::Result<T, Error>;

/// An error of reading or writing.
#[derive(Clone, Copy, Debug)]
pub struct Error {
    kind: ErrorKind,
    /// The system's number for the error, or `None` if the system did not report the error.
    code: Option<i32>,
}

impl Error {
    /// Returns the kind of the error.
    pub fn kind(&self) -> ErrorKind {
        self.kind
    }
}

impl fmt::Display for Error {
    fn fmt(&self, f: &mut fmt::Formatter<'_>) -> fmt::Result {
        match self.code {
            Some(code) => std::io::Error::from_raw_os_error(code).fmt(f),
            None => write!(f, "{:?}", self.kind),
        }
    }
}

impl core::error::Error for Error {}

impl From<ErrorKind> for Error {
    fn from(kind: ErrorKind) -> Error {
        Error { kind, code: None }
    }
}

impl From<AllocError> for Error {
    fn from(_error: AllocError) -> Error {
        Error::from(ErrorKind::OutOfMemory)
    }
}

impl<T> From<AllocFailed<T>> for Error {
    fn from(_error: AllocFailed<T>) -> Error {
        Error::from(ErrorKind::OutOfMemory)
    }
}

impl From<std::io::Error> for Error {
    fn from(error: std::io::Error) -> Error {
        let code = error.raw_os_error();
        let kind = if code == Some(LINKS_LEAD_ROUND) {
            ErrorKind::FilesystemLoop
        } else {
            ErrorKind::of_std(error.kind())
        };
        Error { kind, code }
    }
}

/// The system's number for the error of a path whose links form a cycle. The variant of Rust's
/// `ErrorKind` for this error is unstable.
const LINKS_LEAD_ROUND: i32 = if cfg!(any(target_os = "linux", target_os = "android")) {
    40
} else if cfg!(windows) {
    1921
} else {
    62
};

macro_rules! kinds {
    ($($(#[$doc:meta])* $kind:ident,)*) => {
        /// The kinds of errors of reading and writing.
        #[derive(Clone, Copy, Debug, PartialEq, Eq, Hash)]
        pub enum ErrorKind {
            $($(#[$doc])* $kind,)*
            /// The links of a path form a cycle, or the path has too many links.
            FilesystemLoop,
            /// The operation failed for another reason.
            Other,
        }

        impl ErrorKind {
            fn of_std(kind: std::io::ErrorKind) -> ErrorKind {
                match kind {
                    $(std::io::ErrorKind::$kind => ErrorKind::$kind,)*
                    _ => ErrorKind::Other,
                }
            }
        }
    };
}

kinds! {
    /// There is no file with this path.
    NotFound,
    /// The system does not permit the operation.
    PermissionDenied,
    /// The file already exists.
    AlreadyExists,
    /// The file is a directory.
    IsADirectory,
    /// A component of the path is not a directory.
    NotADirectory,
    /// A name is too long, or has invalid characters.
    InvalidFilename,
    /// The data is not valid, such as a text that is not UTF-8.
    InvalidData,
    /// The disk is full.
    StorageFull,
    /// A quota is used up.
    QuotaExceeded,
    /// The file would be larger than the system allows.
    FileTooLarge,
    /// The file system is read-only.
    ReadOnlyFilesystem,
    /// The reading end of the pipe is closed.
    BrokenPipe,
    /// The call was interrupted, and can be repeated.
    Interrupted,
    /// The call would block.
    WouldBlock,
    /// The call took too long.
    TimedOut,
    /// A call of `write` wrote no bytes.
    WriteZero,
    /// The system does not support the operation.
    Unsupported,
    /// Memory ran out.
    OutOfMemory,
}
