//! Expands the lexers of a Rust file in a build script. Used by build scripts, under the name
//! `logos_build`.

// In this package `std` is Rattle's.
extern crate std as rust_std;

use crate::logos_cli::run_command;
use crate::logos_host::SourceDisk;
use rust_std::path::{Path, PathBuf};
use rust_std::prelude::v1::*;
use rust_std::process::exit;
use rust_std::{env, eprintln, format, println};
use std::alloc::{AllocError, Global, set_budget_of_program};
use std::prelude::{HostRuntime, String as Word, Vec as List};

/// The shape of the generated lexers.
#[derive(Clone, Copy, Debug, Default, PartialEq, Eq)]
pub enum Shape {
    /// Tables, and one loop that reads these tables. A lexer in this shape takes a second to
    /// compile.
    #[default]
    Tables,
    /// A function for each state.
    Tailcall,
    /// One loop, with a match arm for each state.
    StateMachine,
}

impl Shape {
    fn word(self) -> &'static str {
        match self {
            Shape::Tables => "tables",
            Shape::Tailcall => "tailcall",
            Shape::StateMachine => "state_machine",
        }
    }
}

/// The settings for expanding files.
#[derive(Clone, Debug, Default)]
#[must_use = "`expand` expands a file"]
pub struct Build {
    shape: Shape,
}

impl Build {
    /// Returns the default settings, with the shape [`Shape::Tables`].
    pub fn new() -> Build {
        Build::default()
    }

    /// Returns the settings with `shape` as the shape of the lexers.
    pub fn shape(mut self, shape: Shape) -> Build {
        self.shape = shape;
        self
    }

    /// Expands the lexers of the Rust file `source` of the package into a file with the name of
    /// `source` in the directory `OUT_DIR`, and returns the path of the new file. All text other
    /// than the lexers stays unchanged. The new file is written entirely, or not at all.
    ///
    /// Warnings become warnings of Cargo. If the file `source` cannot be read or has faults, or if
    /// the new file cannot be written, prints the reason on standard error, and ends the build
    /// script with exit status 1.
    ///
    /// The library uses at most 1 GiB of memory, or the number of bytes in the environment variable
    /// `LOGOS_MEMORY`, such as `4G`.
    pub fn expand(&self, source: impl AsRef<Path>) -> PathBuf {
        let source = source.as_ref();
        self.try_expand(source).unwrap_or_else(|why| {
            eprintln!("{}", shown(why.trim_end()));
            exit(1)
        })
    }

    fn try_expand(&self, source: &Path) -> Result<PathBuf, String> {
        let name = source.file_name().ok_or("error: the source is no file")?;
        let folder = env::var_os("OUT_DIR")
            .ok_or("error: OUT_DIR is not set: call this in a build script")?;
        let output = Path::new(&folder).join(name);
        let (source, written) = (word(source)?, word(&output)?);
        println!("cargo::rerun-if-changed={source}");
        set_budget_of_program().map_err(|error| format!("error: {error}"))?;
        let messages = self.run(source, written)?;
        let warnings = messages.lines().filter(|line| !line.is_empty());
        warnings.for_each(|line| println!("cargo::warning={}", shown(line)));
        Ok(output)
    }

    /// Runs `logos_cli` on the file at `source`, and writes the result to `output`. Returns the
    /// messages of `logos_cli`, as an error if the exit status is not 0.
    fn run(&self, source: &str, output: &str) -> Result<String, String> {
        let words = [
            source,
            "--shape",
            self.shape.word(),
            "--color",
            "never",
            "--output",
            output,
        ];
        let words = words_of(&words).map_err(|_| "error: out of memory")?;
        let mut files = SourceDisk { rt: &HostRuntime };
        let (mut out, mut messages) = (List::new(Global), List::new(Global));
        let ending = run_command(Global, &words, &mut files, &mut out, &mut messages);
        let messages = String::from_utf8_lossy(&messages).into_owned();
        match ending.status {
            0 => Ok(messages),
            _ => Err(messages),
        }
    }
}

/// Expands the lexers of the Rust file `source` of the package with the default settings, and
/// returns the path of the result, like [`Build::expand`].
pub fn expand(source: impl AsRef<Path>) -> PathBuf {
    Build::new().expand(source)
}

/// Returns a path as an argument, or an error message if the path is not UTF-8 or has control
/// characters. Cargo reads each path from one line of output, so that a path must not contain a
/// line end.
fn word(path: &Path) -> Result<&str, String> {
    let word = path
        .to_str()
        .filter(|word| !word.contains(char::is_control));
    word.ok_or_else(|| format!("error: this path is not plain text: {}", path.display()))
}

fn words_of(words: &[&str]) -> Result<List<Word>, AllocError> {
    let mut list = List::new(Global);
    for text in words {
        let mut word = Word::new(Global);
        word.push_str(text)?;
        list.push(word)?;
    }
    Ok(list)
}

/// Returns `text` with each control character other than a line end escaped.
fn shown(text: &str) -> String {
    let mut shown = String::with_capacity(text.len());
    for c in text.chars() {
        match c.is_control() && c != '\n' {
            true => shown.extend(c.escape_default()),
            false => shown.push(c),
        }
    }
    shown
}
