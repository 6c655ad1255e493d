//! Runs the example `examples/config`.

use std::process::ExitCode;

fn main() -> ExitCode {
    test_programs::config::start()
}
