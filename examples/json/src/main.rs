//! Reads JSON with comments and prints it with one member on each line, or reports its errors.

mod lexer;
mod parser;
mod place;
mod value;

use std::process::ExitCode;
use std::{env, fs};

fn main() -> ExitCode {
    let Some(path) = env::args().nth(1) else {
        eprintln!("usage: json FILE");
        return ExitCode::from(2);
    };
    let text = match fs::read_to_string(&path) {
        Ok(text) => text,
        Err(error) => {
            eprintln!("{path}: {error}");
            return ExitCode::from(3);
        }
    };
    match parser::parse(&text) {
        Ok(value) => {
            println!("{value}");
            ExitCode::SUCCESS
        }
        Err(error) => {
            eprintln!("{}", place::shown(&path, &text, &error));
            ExitCode::FAILURE
        }
    }
}
