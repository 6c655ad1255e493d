//! The program `logos_show`, which prints the properties of a lexer.

use std::process::ExitCode;

fn main() -> ExitCode {
    logos_build::programs::run(logos_build::logos_show::run_logos_show)
}
