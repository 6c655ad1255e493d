//! Expands the lexers of Rust files in build scripts. `expand` expands a file like the program
//! `logos_cli`. The package also contains the programs `logos`, `logos_cli` and `logos_show`.
//!
//! ```no_run
//! // build.rs
//! logos_build::expand("src/lexers.rs");
//! ```
//!
//! A module of the package includes the result:
//!
//! ```ignore
//! include!(concat!(env!("OUT_DIR"), "/lexers.rs"));
//! ```
//!
//! The modules `logos_*` are crates of the repository. As in the package `logos-codegen`, a build
//! script removes their contracts.

#![no_std]
#![forbid(unsafe_code)]
// Some parameters, imports, labels and braces are needed only by the contracts.
#![allow(
    dead_code,
    unused_braces,
    unused_imports,
    unused_labels,
    unused_parens,
    unused_variables
)]
// The sources follow the rules of Rattle, in which functions take `&Vec<T>`, and loops use indices.
#![allow(clippy::all, clippy::pedantic)]
// The docs name items by their Rattle paths.
#![allow(rustdoc::all)]

extern crate rattle_std as std;

// The crates of the package below are available here under their paths there.
use ::logos_codegen::*;

mod expand;
pub mod programs;

pub use expand::{Build, Shape, expand};

include!(concat!(env!("OUT_DIR"), "/crates.rs"));
