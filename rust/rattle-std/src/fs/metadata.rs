//! The metadata and the permissions of files. Used by `fs`.

use super::Files;
use crate::io::{self, ErrorKind};

/// The metadata of a file.
#[derive(Clone)]
pub struct Metadata {
    found: std::fs::Metadata,
    /// The number of the file: a hash of its absolute path.
    #[cfg(not(unix))]
    name: u64,
}

impl Metadata {
    /// Returns whether the file is a regular file.
    pub fn is_file(&self) -> bool {
        self.found.is_file()
    }

    /// Returns the length of the file in bytes.
    #[allow(clippy::len_without_is_empty)]
    pub fn len(&self) -> u64 {
        self.found.len()
    }

    /// Returns a copy of the permissions of the file. Changing the copy does not change the file.
    pub fn permissions(&self) -> Permissions {
        Permissions(self.found.permissions())
    }
}

/// Returns the metadata of the file at `path`. If `path` is the path of a link, returns the
/// metadata of the link's target.
///
/// # Errors
///
/// Returns the error that the system reports, or an error of the kind `Unsupported` for a path in
/// `/proc` on a system other than Linux.
pub fn metadata<R: Files>(_rt: &R, path: &str) -> io::Result<Metadata> {
    if cfg!(not(target_os = "linux")) && path.starts_with("/proc/") {
        // Whether a process runs is unknown on this system, so no process is assumed to have ended.
        return Err(ErrorKind::Unsupported.into());
    }
    Ok(Metadata {
        found: std::fs::metadata(path)?,
        #[cfg(not(unix))]
        name: name_of(path)?,
    })
}

/// Returns a hash of the absolute path of the file at `path`.
#[cfg(not(unix))]
fn name_of(path: &str) -> io::Result<u64> {
    use std::hash::{DefaultHasher, Hash, Hasher};
    let mut hasher = DefaultHasher::new();
    std::fs::canonicalize(path)?.hash(&mut hasher);
    Ok(hasher.finish())
}

/// The permissions of a file.
pub struct Permissions(std::fs::Permissions);

/// Sets the permissions of the file at `path` to `to`.
///
/// # Errors
///
/// Returns the error that the system reports.
pub fn set_permissions<R: Files>(_rt: &R, path: &str, to: Permissions) -> io::Result<()> {
    Ok(std::fs::set_permissions(path, to.0)?)
}

macro_rules! known_to_unix {
    ($($(#[$doc:meta])* $name:ident: $type:ty, $elsewhere:expr;)*) => {
        /// The metadata that files have on Unix. On other systems, the number of a file is a hash
        /// of its absolute path, and the other numbers are 0.
        pub trait MetadataExt {
            $($(#[$doc])* fn $name(&self) -> $type;)*
        }

        impl MetadataExt for Metadata {
            $(fn $name(&self) -> $type {
                #[cfg(unix)]
                return std::os::unix::fs::MetadataExt::$name(&self.found);
                #[cfg(not(unix))]
                return ($elsewhere)(self);
            })*
        }
    };
}

known_to_unix! {
    /// Returns the number of the device that contains the file.
    dev: u64, |_| 0;
    /// Returns the number of the file on its device.
    ino: u64, |file: &Metadata| file.name;
    /// Returns the number of the file's owner.
    uid: u32, |_| 0;
    /// Returns the number of the file's group.
    gid: u32, |_| 0;
    /// Returns the kind and the permissions of the file as the bits of its mode.
    mode: u32, |_| 0;
}

/// The permissions of a file as the mode bits of Unix.
pub trait PermissionsExt {
    /// Sets the permissions to the bits of `mode`. Does nothing on systems other than Unix.
    fn set_mode(&mut self, mode: u32);
}

impl PermissionsExt for Permissions {
    #[cfg(unix)]
    fn set_mode(&mut self, mode: u32) {
        std::os::unix::fs::PermissionsExt::set_mode(&mut self.0, mode);
    }

    #[cfg(not(unix))]
    fn set_mode(&mut self, _mode: u32) {}
}
