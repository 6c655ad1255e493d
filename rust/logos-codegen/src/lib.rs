//! The library that `#[derive(Logos)]` calls to turn the source of an enum into its lexer.
//!
//! The items at the root are those of the crate `logos_codegen` of the repository. The modules
//! `logos_*` are the crates of the library. Their sources are written in Rattle, which is Rust with
//! contracts, and are proved in Rattle. A build script removes the contracts and leaves the rest
//! unchanged, so lines and columns are those of the `.rt` files. That the result behaves as proved
//! depends on this script, on `rattle-std`, and on the Rust compiler. The tests of the repository
//! run both the sources and the result.

#![no_std]
#![forbid(unsafe_code)]
// Some parameters, imports, labels and braces are needed only by the contracts.
#![allow(
    dead_code,
    unused_braces,
    unused_imports,
    unused_labels,
    unused_parens,
    unused_variables
)]
// The sources follow the rules of Rattle, in which functions take `&Vec<T>`, and loops use indices.
#![allow(clippy::all, clippy::pedantic)]
// The docs name items by their Rattle paths.
#![allow(rustdoc::all)]

#[cfg(not(any(target_pointer_width = "64", logos_tested_only)))]
compile_error!(
    "logos-codegen is proved for hosts with 64-bit pointers. To build it for this host, where it is \
     only tested, pass `--cfg logos_tested_only` to rustc."
);

extern crate rattle_std as std;

include!(concat!(env!("OUT_DIR"), "/crates.rs"));

pub use self::logos_codegen::*;

/// The README of the package, whose example `cargo test` runs.
#[cfg(doctest)]
#[doc = include_str!("../README.md")]
struct Readme;
