//! Runs the example `examples/log`.

use std::process::ExitCode;

fn main() -> ExitCode {
    test_programs::log::start()
}
