//! Runs the example `examples/count`.

use std::process::ExitCode;

fn main() -> ExitCode {
    test_programs::count::start()
}
