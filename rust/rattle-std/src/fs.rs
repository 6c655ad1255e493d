//! Replaces Rattle's `std::fs`: files, directories and links, identified by their paths.
//!
//! Paths are texts in the syntax of Unix. The following paths have the same meaning on all systems
//! as on Linux: `/dev/stdin` is the standard input, and `/proc/self` is a link to the process ID.

mod metadata;

use crate::alloc::Global;
use crate::io::{self, Error, ErrorKind, Read, Write};
use crate::rt::HostRuntime;
use crate::string::String;
use crate::vec::Vec;
use std::sync::OnceLock;

pub use metadata::{Metadata, MetadataExt, Permissions, PermissionsExt, metadata, set_permissions};

/// The path that the crates open to read standard input.
const STANDARD_INPUT: &str = "/dev/stdin";

/// The path of the link from which the crates read the process ID.
const OWN_PROCESS: &str = "/proc/self";

/// The path at which the crates read the executable file of the program itself.
const PROGRAM: &str = "/proc/self/exe";

/// The bytes that are read instead of the executable file of the program, once [`set_program`] has
/// set them.
static PROGRAM_BYTES: OnceLock<&'static [u8]> = OnceLock::new();

/// Sets the bytes that are read at `/proc/self/exe` instead of the executable file of the program.
///
/// The bytes contain the commit from which the program was built, and the program searches them for
/// this commit. A program calls this function before it opens a file. Only the first call has an
/// effect.
pub fn set_program(bytes: &'static [u8]) {
    let _ = PROGRAM_BYTES.set(bytes);
}

/// A system with files.
pub trait Files {
    /// Sets the owner of the file at `path` if `user` is not `None`, and the group of the file if
    /// `group` is not `None`. Does nothing on a system without owners.
    ///
    /// # Errors
    ///
    /// Returns the error that the system reports.
    fn chown(&self, path: &str, user: Option<u32>, group: Option<u32>) -> io::Result<()>;
}

impl Files for HostRuntime {
    #[cfg(unix)]
    fn chown(&self, path: &str, user: Option<u32>, group: Option<u32>) -> io::Result<()> {
        Ok(std::os::unix::fs::chown(path, user, group)?)
    }

    #[cfg(not(unix))]
    fn chown(&self, _path: &str, _user: Option<u32>, _group: Option<u32>) -> io::Result<()> {
        Ok(())
    }
}

/// A path that the system has returned.
pub struct PathBuf(String);

impl PathBuf {
    /// Returns the text of `path`, with its components separated by `/`.
    ///
    /// # Errors
    ///
    /// Returns an error of the kind `InvalidData` if the path is not UTF-8, or an error of the kind
    /// `OutOfMemory` if memory runs out.
    fn of(path: &std::path::Path) -> io::Result<PathBuf> {
        let text = path.to_str().ok_or(ErrorKind::InvalidData)?;
        let mut made = String::new(Global);
        made.reserve(text.len())?;
        for character in text.chars() {
            let is_separator = cfg!(windows) && character == '\\';
            made.push(if is_separator { '/' } else { character })?;
        }
        Ok(PathBuf(made))
    }

    /// Returns the text of the path.
    pub fn into_string(self) -> String {
        self.0
    }
}

/// Returns all bytes of the file at `path`.
///
/// # Errors
///
/// Returns the error that the system reports, or an error of the kind `OutOfMemory` if memory runs
/// out.
pub fn read<R: Files>(rt: &R, path: &str) -> io::Result<Vec<u8>> {
    let mut bytes = Vec::new(Global);
    let mut file = File::open(rt, path)?;
    // One more byte, in which the end is detected.
    bytes.reserve(file.len_hint() + 1)?;
    file.read_to_end(&mut bytes)?;
    Ok(bytes)
}

/// Returns the text of the file at `path`.
///
/// # Errors
///
/// Returns:
///
/// - The error that the system reports.
/// - An error of the kind `InvalidData` if the text is not UTF-8.
/// - An error of the kind `OutOfMemory` if memory runs out.
pub fn read_to_string<R: Files>(rt: &R, path: &str) -> io::Result<String> {
    String::from_utf8(read(rt, path)?).map_err(|_| Error::from(ErrorKind::InvalidData))
}

/// Writes `bytes` to the file at `path`. Creates the file if it does not exist, and replaces its
/// contents otherwise.
///
/// # Errors
///
/// Returns the error that the system reports. In this case, the file may have been created or
/// partly written.
pub fn write<R: Files>(_rt: &R, path: &str, bytes: &[u8]) -> io::Result<()> {
    Ok(std::fs::write(path, bytes)?)
}

/// Returns the target of the link at `path`.
///
/// # Errors
///
/// Returns:
///
/// - The error that the system reports.
/// - An error of the kind `InvalidData` if the target is not UTF-8.
/// - An error of the kind `OutOfMemory` if memory runs out.
pub fn read_link<R: Files>(_rt: &R, path: &str) -> io::Result<PathBuf> {
    if cfg!(not(target_os = "linux")) && path == OWN_PROCESS {
        let number = std::process::id();
        return Ok(PathBuf(crate::format!(in Global; "{number}")?));
    }
    PathBuf::of(&std::fs::read_link(path)?)
}

/// Returns the absolute path of the file or directory at `path`, with all links resolved.
///
/// # Errors
///
/// Returns:
///
/// - The error that the system reports.
/// - An error of the kind `InvalidData` if the absolute path is not UTF-8.
/// - An error of the kind `OutOfMemory` if memory runs out.
pub fn canonicalize<R: Files>(_rt: &R, path: &str) -> io::Result<PathBuf> {
    PathBuf::of(&std::fs::canonicalize(path)?)
}

/// Renames the file at the path `from` to the path `to`. Replaces an existing file at `to`.
///
/// # Errors
///
/// Returns the error that the system reports.
pub fn rename<R: Files>(_rt: &R, from: &str, to: &str) -> io::Result<()> {
    Ok(std::fs::rename(from, to)?)
}

/// Removes the file at `path`.
///
/// # Errors
///
/// Returns the error that the system reports.
pub fn remove_file<R: Files>(_rt: &R, path: &str) -> io::Result<()> {
    Ok(std::fs::remove_file(path)?)
}

/// Creates the directory at `path` and all its missing parent directories. Does nothing if the
/// directory exists.
///
/// # Errors
///
/// Returns the error that the system reports.
pub fn create_dir_all<R: Files>(_rt: &R, path: &str) -> io::Result<()> {
    // Rust creates nothing for a path that ends with `.`, so its last components are taken.
    let folder = std::path::Path::new(path).components();
    Ok(std::fs::create_dir_all(folder.as_path())?)
}

/// An entry of a directory: a file, or another directory.
pub struct DirEntry(String);

impl DirEntry {
    /// Returns the name of the entry, without the path of the directory.
    pub fn file_name(&self) -> &str {
        &self.0
    }
}

/// Returns an iterator over the entries of the directory at `path`.
///
/// # Errors
///
/// Returns the error that the system reports. Each item of the iterator may also be an error:
///
/// - The error that the system reports.
/// - An error of the kind `InvalidData` if the name of the entry is not UTF-8.
/// - An error of the kind `OutOfMemory` if memory runs out.
pub fn read_dir<R: Files>(
    _rt: &R,
    path: &str,
) -> io::Result<impl Iterator<Item = io::Result<DirEntry>>> {
    Ok(std::fs::read_dir(path)?.map(|entry| {
        let name = entry?.file_name();
        let name = name.to_str().ok_or(ErrorKind::InvalidData)?;
        Ok(DirEntry(String::from_str(Global, name)?))
    }))
}

/// Opens the file at `path` for reading.
///
/// # Errors
///
/// Returns the error that the system reports.
pub fn open<R: Files>(rt: &R, path: &str) -> io::Result<File> {
    File::open(rt, path)
}

/// An open file, standard input, or the bytes of the program itself.
pub struct File(Opened);

enum Opened {
    File(std::fs::File),
    StandardInput(std::io::Stdin),
    Program(&'static [u8]),
}

impl File {
    /// Opens the file at `path` for reading.
    ///
    /// # Errors
    ///
    /// Returns the error that the system reports.
    pub fn open<R: Files>(_rt: &R, path: &str) -> io::Result<File> {
        if path == PROGRAM
            && let Some(bytes) = PROGRAM_BYTES.get()
        {
            return Ok(File(Opened::Program(bytes)));
        }
        match std::fs::File::open(path) {
            Ok(file) => Ok(File(Opened::File(file))),
            // Not every system has it as a file, and on none can it be opened if it is a socket.
            Err(_) if path == STANDARD_INPUT => Ok(File(Opened::StandardInput(std::io::stdin()))),
            Err(error) => Err(Error::from(error)),
        }
    }

    /// Creates the file at `path`, and opens it for writing.
    ///
    /// # Errors
    ///
    /// Returns the error that the system reports. The error has the kind `AlreadyExists` if the
    /// file exists.
    pub fn create_new<R: Files>(_rt: &R, path: &str) -> io::Result<File> {
        Ok(File(Opened::File(std::fs::File::create_new(path)?)))
    }

    /// Returns the length of the file in bytes as the system reports it, but at most 64 MiB.
    /// Returns 0 if the system reports no length.
    fn len_hint(&self) -> usize {
        const MOST: u64 = 1 << 26;
        match &self.0 {
            Opened::File(file) => file
                .metadata()
                .map_or(0, |found| found.len().min(MOST) as usize),
            Opened::StandardInput(_) | Opened::Program(_) => 0,
        }
    }
}

impl Read for File {
    fn read(&mut self, buf: &mut [u8]) -> io::Result<usize> {
        Ok(match &mut self.0 {
            Opened::File(file) => std::io::Read::read(file, buf)?,
            Opened::StandardInput(input) => std::io::Read::read(input, buf)?,
            Opened::Program(left) => left.read(buf)?,
        })
    }
}

impl Write for File {
    fn write(&mut self, buf: &[u8]) -> io::Result<usize> {
        match &mut self.0 {
            Opened::File(file) => Ok(std::io::Write::write(file, buf)?),
            _ => Err(Error::from(ErrorKind::Unsupported)),
        }
    }

    fn flush(&mut self) -> io::Result<()> {
        match &mut self.0 {
            Opened::File(file) => Ok(std::io::Write::flush(file)?),
            _ => Ok(()),
        }
    }
}
