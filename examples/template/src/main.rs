//! Renders a template with a map.

mod data;
mod lexers;
mod parser;
mod place;
mod render;

use std::process::ExitCode;
use std::{env, fs};

fn main() -> ExitCode {
    let words: Vec<String> = env::args().skip(1).collect();
    let [template, values] = words.as_slice() else {
        eprintln!("usage: template TEMPLATE VALUES");
        return ExitCode::from(2);
    };
    match rendered(template, values) {
        Ok(text) => {
            print!("{text}");
            ExitCode::SUCCESS
        }
        Err(message) => {
            eprintln!("{message}");
            ExitCode::FAILURE
        }
    }
}

fn rendered(template: &str, values: &str) -> Result<String, String> {
    let read = |path: &str| fs::read_to_string(path).map_err(|error| format!("{path}: {error}"));
    let (text, values) = (read(template)?, read(values)?);
    let parts = parser::parse(&text).map_err(|error| place::shown(template, &text, &error))?;
    let mut out = String::new();
    render::render(&parts, &mut vec![&data::read(&values)], &mut out);
    Ok(out)
}
