//! Replaces Rattle's `std::os`: traits for the files of Unix.

/// Rattle's traits for Unix. On other systems, only the number of a file has a meaning, and setting
/// a mode has no effect.
pub mod unix {
    /// The traits for the metadata and the permissions of a file.
    pub mod fs {
        pub use crate::fs::{MetadataExt, PermissionsExt};
    }
}
