//! Runs the example `examples/edit`.

use std::process::ExitCode;

fn main() -> ExitCode {
    test_programs::edit::start()
}
