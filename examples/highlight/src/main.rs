//! Prints a source as a page of HTML, or in the colours of a terminal.

mod lexer;
mod paint;

use std::process::ExitCode;
use std::{env, fs};

fn main() -> ExitCode {
    let words: Vec<String> = env::args().skip(1).collect();
    let (path, paint): (_, fn(&str, &str) -> String) = match words.as_slice() {
        [path] => (path, paint::page),
        [flag, path] if flag == "--ansi" => (path, |_, text| paint::ansi(text)),
        _ => {
            eprintln!("usage: highlight [--ansi] FILE");
            return ExitCode::from(2);
        }
    };
    match fs::read_to_string(path) {
        Ok(text) => {
            print!("{}", paint(path, &text));
            ExitCode::SUCCESS
        }
        Err(error) => {
            eprintln!("{path}: {error}");
            ExitCode::from(3)
        }
    }
}
