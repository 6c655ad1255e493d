//! Runs the program of `tests/calls`.

use std::process::ExitCode;

fn main() -> ExitCode {
    test_programs::calls::start()
}
