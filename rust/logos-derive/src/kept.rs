//! A cache that stores answers from one build to the next.
//!
//! rustc expands a macro again in each build of the crate that uses the macro. An answer depends
//! only on the enum, the shape and the library, so it is stored in the directory that Cargo
//! provides to the macro. Each file contains its question, which is compared before the answer is
//! used. A file is written under another name and then renamed, so that no partial file is ever
//! read. If the directory cannot be written, nothing is stored.

use crate::answer::{Answer, ShapeName};
use crate::record;
use std::collections::hash_map::DefaultHasher;
use std::fs::{self, OpenOptions};
use std::hash::{Hash, Hasher};
use std::io::{self, Write};
use std::path::{Path, PathBuf};

/// The directory that Cargo provides to the macro. The directory exists on the machine that built
/// the macro.
const FOLDER: &str = env!("OUT_DIR");

/// The identity of this version of the library: a checksum of its sources.
const LIBRARY: &str = env!("LOGOS_LIBRARY");

/// The maximum length of a file, in bytes.
const LONGEST: usize = 8 << 20;

/// The maximum total length of all files, in bytes. If another file would exceed this length, all
/// files are removed.
const MOST: u64 = 128 << 20;

/// The number of bytes that each smaller file counts as. This minimum bounds the number of files.
const LEAST: u64 = 32 << 10;

/// An entry of the cache: the question, and the path of the file that stores the answer.
pub struct Place {
    asked: String,
    path: PathBuf,
}

impl Place {
    /// Returns the entry for the answer about the enum `text` in the shape `shape`.
    pub fn new(text: &str, shape: ShapeName) -> Place {
        let asked = format!("{LIBRARY} {} {text}", shape.0);
        let mut sum = DefaultHasher::new();
        asked.hash(&mut sum);
        let path = folder().join(format!("{:016x}", sum.finish()));
        Place { asked, path }
    }

    /// Returns the stored answer, or `None` if no answer is stored or the file cannot be read.
    pub fn find(&self) -> Option<Answer> {
        let bytes = fs::read(&self.path).ok()?;
        record::read(&bytes, &self.asked)
    }

    /// Stores the answer about an accepted enum. Stores nothing if the enum was refused, the record
    /// is longer than [`LONGEST`], or the file cannot be written.
    pub fn keep(&self, answer: &Answer) {
        let bytes = record::written(answer, &self.asked);
        if let Some(bytes) = bytes.filter(|bytes| bytes.len() <= LONGEST) {
            // Without it the next build calls the library again.
            let _ = self.write(&bytes);
        }
    }

    fn write(&self, bytes: &[u8]) -> io::Result<()> {
        make_room(bytes.len() as u64)?;
        let beside = self.path.with_extension(std::process::id().to_string());
        let mut file = OpenOptions::new()
            .write(true)
            .create_new(true)
            .open(&beside)?;
        let written = file
            .write_all(bytes)
            .and_then(|()| fs::rename(&beside, &self.path));
        if written.is_err() {
            fs::remove_file(&beside)?;
        }
        written
    }
}

fn folder() -> PathBuf {
    Path::new(FOLDER).join("answers")
}

/// Creates the directory if it does not exist. Removes all files in it if their total length,
/// including another file of `more` bytes, would exceed [`MOST`].
fn make_room(more: u64) -> io::Result<()> {
    if !folder().is_dir() {
        fs::create_dir(folder())?;
    }
    let mut files = Vec::new();
    let mut bytes = more.max(LEAST);
    for entry in fs::read_dir(folder())?.flatten() {
        bytes += entry.metadata()?.len().max(LEAST);
        files.push(entry.path());
    }
    if bytes > MOST {
        files.iter().try_for_each(fs::remove_file)?;
    }
    Ok(())
}
