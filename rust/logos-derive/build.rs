//! Passes a checksum of the library's sources to the macro, so that the macro ignores the stored
//! answers of other versions of the library.

use std::fs;
use std::path::{Path, PathBuf};

/// The directories with the sources of the macro and of the packages that it calls, relative to the
/// package. In a package from a registry, only the first directory exists, and the version of the
/// package identifies the other sources.
const FOLDERS: [&str; 4] = [
    "src",
    "../logos-codegen",
    "../rattle-std/src",
    "../erase/src",
];

/// The directory of the crates in Rattle, and a file beside this directory. The crates are read
/// only if both exist.
const CRATES: [&str; 2] = ["../../crates", "../../crates.txt"];

/// The names of directories that do not affect the behavior of the library.
const LEFT_OUT: [&str; 6] = ["must-fail", "out", "proofs", "specs", "target", "tests"];

fn main() {
    let mut files = Vec::new();
    for folder in FOLDERS {
        add_sources(Path::new(folder), &mut files);
    }
    if CRATES.iter().all(|path| Path::new(path).exists()) {
        add_sources(Path::new(CRATES[0]), &mut files);
    }
    files.sort();
    println!("cargo::rerun-if-changed=build.rs");
    for path in &files {
        println!("cargo::rerun-if-changed={}", path.display());
    }
    let read = files.iter().filter_map(|path| fs::read(path).ok());
    let sum = read.fold(0xcbf2_9ce4_8422_2325, add);
    println!("cargo::rustc-env=LOGOS_LIBRARY={sum:016x}");
}

/// Adds the paths of the Rust and Rattle sources in a directory to `files`. Symbolic links to
/// directories are not followed.
fn add_sources(folder: &Path, files: &mut Vec<PathBuf>) {
    let Ok(entries) = fs::read_dir(folder) else {
        return;
    };
    for entry in entries.flatten() {
        let path = entry.path();
        let is_folder = entry.file_type().is_ok_and(|kind| kind.is_dir());
        let is_source = path
            .extension()
            .is_some_and(|end| end == "rs" || end == "rt");
        if is_folder && !LEFT_OUT.iter().any(|name| path.ends_with(name)) {
            add_sources(&path, files);
        } else if is_source {
            files.push(path);
        }
    }
}

/// Returns the checksum `sum` extended by the bytes of a file. The checksum is a variant of FNV-1a
/// that reads words of eight bytes and rotates the sum.
fn add(sum: u64, bytes: Vec<u8>) -> u64 {
    let mix = |sum: u64, word: u64| {
        (sum ^ word)
            .wrapping_mul(0x0000_0100_0000_01b3)
            .rotate_left(29)
    };
    let word = |part: &[u8]| {
        part.iter()
            .fold(0, |word, byte| word << 8 | u64::from(*byte))
    };
    let sum = bytes.chunks(8).map(word).fold(sum, mix);
    mix(sum, bytes.len() as u64)
}
