//! `erase` removes the contracts from a Rattle source. The result is Rust.
//!
//! The build scripts of the packages beside this package use `build` to compile crates as modules.
//!
//! - Ghost items, clauses and everything else that only proofs need become blanks. The `crate` of a
//!   path and the names of several methods are replaced by names of the same width. Each remaining
//!   token therefore keeps its line and its column, and an error of the compiler or a panic names
//!   the line of the `.rt` file.
//! - Lines are added only after the last line: `use` declarations, and an `impl` of `Clone` for
//!   each derive of `Clone` that is removed.
//! - Unknown forms are refused, with their file, line and column.
#![forbid(unsafe_code)]

mod attributes;
mod ghosts;
mod package;
mod rules;
mod source;
mod tokens;

pub use package::{Crates, LIBRARY, Module, build};

use std::fmt;

/// The modules to which the paths in a file lead in the Rust package.
#[derive(Clone, Default)]
pub struct Paths<'a> {
    /// The name of the module of the package's root that contains the file's crate, such as
    /// `logos_hir`.
    pub module: &'a str,
    /// The crates that paths in the file may name, each with the module that contains the crate,
    /// such as `crate`.
    pub libraries: Vec<(&'a str, &'a str)>,
}

/// The reason why a source was not erased: a form that this library does not know, with its
/// location.
#[derive(Clone, Debug, PartialEq, Eq)]
pub struct Refusal {
    /// The byte offset of the unknown form in the source.
    at: usize,
    /// The line of the unknown form, counted from 1.
    pub line: usize,
    /// The column of the unknown form in characters, counted from 1.
    pub column: usize,
    /// The description of the unknown form.
    pub message: &'static str,
}

impl Refusal {
    fn new(at: usize, message: &'static str) -> Refusal {
        Refusal { at, line: 0, column: 0, message }
    }
}

impl fmt::Display for Refusal {
    fn fmt(&self, f: &mut fmt::Formatter<'_>) -> fmt::Result {
        write!(f, "{}:{}: {}", self.line, self.column, self.message)
    }
}

/// Returns the Rust text of the Rattle source `text`. The paths of the text lead to the modules in
/// `paths`.
///
/// # Errors
///
/// Returns `Refusal` for the first form in the source that this library does not know.
pub fn erase(text: &str, paths: &Paths<'_>) -> Result<String, Refusal> {
    let erased = source::Source::new(text).and_then(|mut source| {
        let added = rules::apply(&mut source, paths)?;
        Ok(source.edited() + &added)
    });
    erased.map_err(|refusal| {
        let before = &text[..refusal.at];
        let line = before.split('\n').next_back().unwrap_or("");
        let (lines, column) = (before.matches('\n').count(), line.chars().count());
        Refusal { line: lines + 1, column: column + 1, ..refusal }
    })
}
