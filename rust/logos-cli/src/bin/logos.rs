//! The program `logos`, which prints the lexer of an enum or the state diagram of the lexer, and
//! lexes files with the lexer.

use std::process::ExitCode;

fn main() -> ExitCode {
    logos_build::programs::run(logos_build::logos_program::run_logos_program)
}
