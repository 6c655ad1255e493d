//! Runs the program of `tests/edits`.

use std::process::ExitCode;

fn main() -> ExitCode {
    test_programs::edits::start()
}
