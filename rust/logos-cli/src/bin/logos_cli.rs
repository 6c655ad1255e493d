//! The program `logos_cli`, which expands the lexers in Rust files.

use std::process::ExitCode;

fn main() -> ExitCode {
    logos_build::programs::run(logos_build::logos_cli::run_logos_cli)
}
