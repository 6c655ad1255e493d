//! Replaces Rattle's `std::rt`: the system on which a program runs.

use crate::alloc::Global;
use crate::io::{Stderr, Stdin};

pub use crate::env::Env;
pub use crate::fs::Files;

/// A system with an allocator.
pub trait AllocGlobal {
    /// Returns the allocator of the system.
    fn alloc(&self) -> Global;
}

/// The system on which this program runs.
#[derive(Clone, Copy, Debug, Default)]
pub struct HostRuntime;

impl HostRuntime {
    /// Returns the standard input of the process.
    pub fn stdin(&self) -> Stdin {
        Stdin(std::io::stdin())
    }

    /// Returns the standard error of the process.
    pub fn stderr(&self) -> Stderr {
        Stderr(std::io::stderr())
    }
}

impl AllocGlobal for HostRuntime {
    fn alloc(&self) -> Global {
        Global
    }
}
