//! The standard input, output and error of a process.

use super::{Read, Result, Write};
use crate::rt::HostRuntime;
use crate::vec::Vec;

/// A system with a standard input.
pub trait Input {
    /// The type of the reader of standard input.
    type Reader: Read;

    /// Returns a reader of the standard input of the system.
    fn reader(&self) -> Self::Reader;
}

impl Input for HostRuntime {
    type Reader = Stdin;

    fn reader(&self) -> Stdin {
        self.stdin()
    }
}

/// A system with a standard output and a standard error.
pub trait Print {
    /// Returns the standard output of the system.
    fn stdout(&self) -> Stdout;

    /// Returns the standard error of the system.
    fn stderr(&self) -> Stderr;
}

impl Print for HostRuntime {
    fn stdout(&self) -> Stdout {
        Stdout(std::io::stdout())
    }

    fn stderr(&self) -> Stderr {
        HostRuntime::stderr(self)
    }
}

impl<P: Print> Print for &P {
    fn stdout(&self) -> Stdout {
        (**self).stdout()
    }

    fn stderr(&self) -> Stderr {
        (**self).stderr()
    }
}

/// A stream that may be a terminal.
pub trait IsTerminal {
    /// Returns whether the stream is a terminal.
    fn is_terminal(&self) -> bool;
}

impl IsTerminal for Vec<u8> {
    fn is_terminal(&self) -> bool {
        false
    }
}

/// The standard input of the process.
pub struct Stdin(pub(crate) std::io::Stdin);

impl Read for Stdin {
    fn read(&mut self, buf: &mut [u8]) -> Result<usize> {
        Ok(std::io::Read::read(&mut self.0, buf)?)
    }
}

macro_rules! output {
    ($(#[$doc:meta])* $name:ident) => {
        $(#[$doc])*
        pub struct $name(pub(crate) std::io::$name);

        impl Write for $name {
            fn write(&mut self, buf: &[u8]) -> Result<usize> {
                Ok(std::io::Write::write(&mut self.0, buf)?)
            }

            fn flush(&mut self) -> Result<()> {
                Ok(std::io::Write::flush(&mut self.0)?)
            }
        }

        impl IsTerminal for $name {
            fn is_terminal(&self) -> bool {
                std::io::IsTerminal::is_terminal(&self.0)
            }
        }
    };
}

output! {
    /// The standard output of the process.
    Stdout
}

output! {
    /// The standard error of the process.
    Stderr
}
