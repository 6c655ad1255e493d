//! The part of Rattle's standard library that the erased crates use, implemented with Rust's
//! standard library.
//!
//! Rattle is Rust with contracts. Its standard library differs from Rust's in allocation: a
//! function that allocates takes an allocator and returns a `Result`. Erased crates name this crate
//! `std`, and each of their files imports the [`prelude`].
//!
//! Modules that Rattle and Rust have in common are re-exported. The documentation of each other
//! module names the module of Rattle that it replaces.

#![deny(unsafe_code)]
#![warn(missing_docs)]

#[macro_use]
mod macros;

pub mod alloc;
pub mod boxed;
pub mod clone;
pub mod collections;
pub mod crates;
pub mod env;
pub mod fs;
pub mod io;
mod methods;
pub mod os;
pub mod process;
pub mod rt;
pub mod simd;
pub mod string;
pub mod time;
pub mod vec;

pub use core::{
    any, array, ascii, borrow, cell, char, cmp, convert, default, error, fmt, hash, hint, iter,
    marker, mem, num, ops, option, result, slice, str,
};

/// The names that each erased file imports.
pub mod prelude {
    pub use crate::boxed::Box;
    pub use crate::clone::{Clone, Clones};
    pub use crate::io::Print;
    pub use crate::methods::{AsciiLowercaseIn, ListIn, StringIn, VecIn};
    pub use crate::rt::{AllocGlobal, HostRuntime};
    pub use crate::string::String;
    pub use crate::vec::Vec;
    pub use crate::{eprint, eprintln, format, print, println, vec};
}

/// The functions that the macros of this crate call.
#[doc(hidden)]
pub mod called_by_macros {
    pub use crate::methods::{formatted, listed, repeated};
    pub use core::format_args;
}
