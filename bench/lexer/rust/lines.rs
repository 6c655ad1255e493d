//! Prints a line for each item of the file that the first argument names, as `logos lex` does. The
//! rules stand beside this file: `rules.rs` is the enum without its attributes, `lexer.rs` the text
//! of its lexer. They have one skip, in front of the variants, and each variant has one leaf.

#![allow(warnings)]

use std::io::{BufWriter, Write};

include!("rules.rs");
include!("lexer.rs");

fn main() -> std::io::Result<()> {
    let path = std::env::args().nth(1).expect("a file");
    let input = std::fs::read(path)?;
    let source = <<Rules as logos::Logos>::Source as Read>::read(&input);
    let mut lexer = logos::Lexer::<Rules>::new(source);
    let mut out = BufWriter::new(std::io::stdout().lock());
    while let Some(item) = lexer.next() {
        let span = lexer.span();
        match item {
            Ok(token) => writeln!(out, "token {} {}..{}", token as usize + 1, span.start, span.end)?,
            Err(_) => writeln!(out, "error {}..{}", span.start, span.end)?,
        }
    }
    out.flush()
}

trait Read {
    fn read(bytes: &[u8]) -> &Self;
}

impl Read for str {
    fn read(bytes: &[u8]) -> &str {
        std::str::from_utf8(bytes).expect("UTF-8")
    }
}

impl Read for [u8] {
    fn read(bytes: &[u8]) -> &[u8] {
        bytes
    }
}
