#![deny(warnings)]
#![deny(clippy::all)]
//! A file that allows nothing.

use logos::*;

/// Tokens.
#[derive(Debug, Logos)]
pub enum Token {
    /// A name.
    #[regex("[a-z]+", |_| ())]
    Name,
    /// A blank.
    #[token(" ")]
    Blank,
}

/// Counts tokens.
pub fn count(text: &str) -> usize {
    Token::lexer(text).count()
}

/// Returns what is skipped.
pub fn skipped() -> Skip {
    Skip
}
