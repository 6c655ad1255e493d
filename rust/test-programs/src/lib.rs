//! Contains the Rattle programs of the tests and the examples. Each program is a module whose
//! contracts were erased.

#![no_std]
#![forbid(unsafe_code)]
// Some parameters, imports, labels and braces are needed only by the contracts.
#![allow(
    dead_code,
    for_loops_over_fallibles,
    unused_braces,
    unused_imports,
    unused_labels,
    unused_parens,
    unused_variables
)]
// The sources follow the rules of Rattle.
#![allow(clippy::all, clippy::pedantic)]

extern crate rattle_std as std;

// The crates of the packages below are available here under their paths there.
use ::logos_build::*;
use ::logos_codegen::*;

include!(concat!(env!("OUT_DIR"), "/crates.rs"));
