//! Runs the first program in the guide.

use std::process::ExitCode;

fn main() -> ExitCode {
    test_programs::first::start()
}
