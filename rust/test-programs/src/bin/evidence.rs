//! Runs the program of `tests/evidence`.

use std::process::ExitCode;

fn main() -> ExitCode {
    test_programs::evidence::start()
}
