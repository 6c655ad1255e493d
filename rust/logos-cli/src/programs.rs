//! Functions that run a program. `run` uses the files, the clock and the streams of this process,
//! and `show` uses those that the caller passes. Called by the programs `logos`, `logos_cli` and
//! `logos_show`, and by the playground.

use crate::logos_host::{ComparableFiles, Failure, arguments};
use std::alloc::{Global, set_budget_of_program};
use std::env::Env;
use std::io::{Input, Write};
use std::prelude::{HostRuntime, String, Vec};
use std::process::ExitCode;
use std::time::Clock;

/// The line that `--version` prints after the version. The programs do not print a line that names
/// no commit.
const COMMIT: &str = concat!("commit: ", env!("LOGOS_COMMIT"), "\n");

/// The exit status if the variable `LOGOS_MEMORY` is not a number of bytes.
const MISUSE: u8 = 2;

/// A program as a function. The function takes the runtime, and the arguments of the process or the
/// failure to read the arguments. The result is the exit status.
type Program = fn(&HostRuntime, Result<Vec<String>, Failure<'static>>) -> u8;

/// Runs a program with the arguments of the process. Returns the exit status of the program, or
/// [`MISUSE`] if the variable `LOGOS_MEMORY` is not a number of bytes.
pub fn run(program: Program) -> ExitCode {
    if let Err(error) = set_budget_of_program() {
        let _ = writeln!(HostRuntime.stderr(), "error: {error}");
        return ExitCode::from(MISUSE);
    }
    std::fs::set_program(COMMIT.as_bytes());
    ExitCode::from(program(&HostRuntime, arguments(&HostRuntime)))
}

/// Runs `logos_show` on the files `files` and the system `system`, which has a clock, a standard
/// input and variables. `arguments` does not contain the name of the program. Returns the exit
/// status. Appends the standard error to `err` and the standard output to `out`.
pub fn show<F: ComparableFiles, S: Clock + Input + Env>(
    arguments: &[String],
    files: &mut F,
    system: &S,
    err: &mut Vec<u8>,
    out: &mut Vec<u8>,
) -> u8 {
    crate::logos_show::run_command(Global, arguments, files, system, err, out)
}
