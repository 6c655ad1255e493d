//! `build` erases the crates of a Rust package into the modules of the package. Called by build
//! scripts, which run in the directory of their package.

use crate::{Paths, erase};
use std::path::{Path, PathBuf};
use std::{env, fs, io};

/// The crates that the package `logos-codegen` contains in addition to the libraries that these
/// crates use.
pub const LIBRARY: [&str; 4] = ["logos_codegen", "logos_tables", "logos_help", "logos_derive"];

/// A crate or a program that becomes a module of the package's root.
pub struct Module<'a> {
    pub name: &'a str,
    /// The directory of the module's sources, or the module's single source.
    pub source: PathBuf,
    pub paths: Paths<'a>,
    /// The lines that are added to the module's root.
    pub added: &'a str,
}

/// The crates of the repository, with the libraries that each crate uses, as listed in
/// `crates.txt`.
pub struct Crates {
    folder: &'static Path,
    rows: Vec<(String, Vec<String>)>,
}

impl Crates {
    /// Returns the crates of the repository.
    ///
    /// The package contains the crates as `bazel-crates`, and their list as `bazel-crates.txt`.
    /// These are symbolic links in a clone, and copies in a vendored package. Rattle's gate refuses
    /// links with other names. In a clone without links, the crates are two directories above.
    ///
    /// # Errors
    ///
    /// Returns an error if the list of the crates cannot be read.
    pub fn find() -> io::Result<Crates> {
        let is_whole = Path::new("bazel-crates").is_dir();
        let folder = Path::new(if is_whole { "bazel-crates" } else { "../../crates" });
        let list = folder.with_extension("txt");
        println!("cargo::rerun-if-changed={}", list.display());
        let text = fs::read_to_string(&list).map_err(named(&list))?;
        let lines = text.lines().filter(|line| !line.starts_with('#'));
        let rows = lines.filter_map(|line| line.split_once(':')).map(|(name, libraries)| {
            (name.trim().to_string(), libraries.split_whitespace().map(String::from).collect())
        });
        Ok(Crates { folder, rows: rows.collect() })
    }

    /// Returns the names of all crates, in the order of the list.
    pub fn names(&self) -> impl Iterator<Item = &str> {
        self.rows.iter().map(|(name, _)| name.as_str())
    }

    /// Returns the names of the libraries that the crate `name` uses, or no names if the list does
    /// not contain the crate.
    fn libraries(&self, name: &str) -> impl Iterator<Item = &str> {
        let row = self.rows.iter().find(|(row, _)| row == name);
        row.into_iter().flat_map(|(_, libraries)| libraries).map(String::as_str)
    }

    /// Returns the names of the crates `roots` and of all crates that they use, directly or
    /// indirectly, in the order of the list.
    pub fn closure(&self, roots: &[&str]) -> Vec<&str> {
        let (mut needed, mut left) = (Vec::new(), roots.to_vec());
        while let Some(name) = left.pop() {
            if !needed.contains(&name) {
                needed.push(name);
                left.extend(self.libraries(name));
            }
        }
        self.names().filter(|name| needed.contains(name)).collect()
    }

    /// Returns the crate `name` as a module.
    pub fn module<'a>(&'a self, name: &'a str) -> Module<'a> {
        let source = self.folder.join(name).join("src");
        // A library that is not in the list belongs to the toolchain.
        let is_listed = |library| self.names().any(|name| name == library);
        let place = |library| if is_listed(library) { "crate" } else { "std::crates" };
        let libraries = self.libraries(name).map(|library| (library, place(library))).collect();
        Module { name, source, paths: Paths { module: name, libraries }, added: "" }
    }
}

/// Erases modules into the directory `OUT_DIR`. Each module becomes a file with the module's name,
/// and a directory with the modules that it contains. Also writes the file `crates.rs`, which
/// declares the modules, into `OUT_DIR`.
///
/// # Errors
///
/// Returns an error if a file cannot be read, erased or written. In this case, other files may have
/// been written.
pub fn build(modules: &[Module<'_>]) -> io::Result<()> {
    let out = PathBuf::from(env::var_os("OUT_DIR").unwrap_or_default());
    let mut declarations = String::new();
    for module in modules {
        println!("cargo::rerun-if-changed={}", module.source.display());
        erase_module(module, &out.join(module.name))?;
        declarations += &format!("pub mod {};\n", module.name);
    }
    write(&out.join("crates.rs"), declarations)
}

/// Erases the sources of a module: the root into the file `target` with the extension `rs`, and the
/// other sources into the directory `target`. Modules named `laws` are left out.
fn erase_module(module: &Module<'_>, target: &Path) -> io::Result<()> {
    let (paths, root) = (&module.paths, target.with_extension("rs"));
    if module.source.is_file() {
        return erase_file(&module.source, &root, paths, module.added);
    }
    let mut left = vec![(module.source.clone(), target.to_path_buf())];
    while let Some((from, to)) = left.pop() {
        for entry in fs::read_dir(&from).map_err(named(&from))? {
            let path = entry.map_err(named(&from))?.path();
            let name = path.file_name().and_then(|name| name.to_str()).unwrap_or("");
            match name.trim_end_matches(".in").strip_suffix(".rt") {
                Some("laws") => {}
                Some("lib" | "main") if from == module.source => {
                    erase_file(&path, &root, paths, module.added)?;
                }
                Some(stem) => erase_file(&path, &to.join(stem).with_extension("rs"), paths, "")?,
                None if path.is_dir() => left.push((path.clone(), to.join(name))),
                None => {}
            }
        }
    }
    Ok(())
}

fn erase_file(path: &Path, target: &Path, paths: &Paths<'_>, added: &str) -> io::Result<()> {
    let text = fs::read_to_string(path).map_err(named(path))?;
    let erased = erase(&text, paths)
        .map_err(|refusal| io::Error::other(format!("{}:{refusal}", path.display())))?;
    write(target, erased + added)
}

/// Writes a file. Creates the directory of the file if the directory does not exist.
fn write(path: &Path, text: String) -> io::Result<()> {
    fs::create_dir_all(path.parent().unwrap_or(path)).map_err(named(path))?;
    fs::write(path, text).map_err(named(path))
}

/// Returns a function that adds `path` to the message of an error.
fn named(path: &Path) -> impl Fn(io::Error) -> io::Error {
    |error| io::Error::new(error.kind(), format!("{}: {error}", path.display()))
}
