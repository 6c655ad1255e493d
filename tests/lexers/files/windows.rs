//! Lines that end with CR LF.

use logos::Logos;

#[derive(Debug, Logos)]
// A comment.
#[logos(skip(r"[ \t]+"))]
pub enum Token {
    #[regex(r"\r?\n")]
    Line,
    /// A word.
    #[regex("[a-z]+")]
    Word,
}
