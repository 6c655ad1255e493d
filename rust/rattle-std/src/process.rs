//! Replaces Rattle's `std::process`: the exit status of a program.

pub use std::process::{ExitCode, Termination};
