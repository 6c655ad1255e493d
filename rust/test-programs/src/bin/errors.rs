//! Runs the example `examples/errors`.

use std::process::ExitCode;

fn main() -> ExitCode {
    test_programs::errors::start()
}
