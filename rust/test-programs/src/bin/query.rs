//! Runs the example `examples/query`.

use std::process::ExitCode;

fn main() -> ExitCode {
    test_programs::query::start()
}
