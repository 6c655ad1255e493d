//! Lexers that all lints are asked about: with variants for which a `cfg` is active, callbacks of
//! several forms, a type of errors and extras.

use logos::{Filter, Lexer, Logos, Skip};

/// The words of a language.
#[derive(Logos, Clone, Copy, Debug, PartialEq, Eq)]
#[logos(skip r"[ \t]+", extras = Lines, error = Fault)]
pub enum Word<'s> {
    /// A name.
    #[regex(r"\p{XID_Start}\p{XID_Continue}*")]
    Name(&'s str),
    /// A number.
    #[regex("[0-9]+", |lex| lex.slice().parse().ok())]
    Number(u32),
    /// An opening brace.
    #[cfg(feature = "more")]
    #[token("{")]
    Open,
    /// A closing brace.
    #[cfg(not(feature = "less"))]
    #[cfg_attr(feature = "more", token("}"))]
    Close,
    /// Two dots or more.
    #[regex(r"\.\.+", dots)]
    Dots(usize),
    /// The end of a line.
    #[token("\n", newline)]
    Line,
}

/// The state of a lexer.
#[derive(Clone, Copy, Debug, Default, PartialEq, Eq)]
pub struct Lines {
    count: usize,
}

/// Why there is no token.
#[derive(Clone, Debug, Default, PartialEq, Eq)]
pub struct Fault;

fn newline<'s>(lexer: &mut Lexer<'s, Word<'s>>) -> Skip {
    lexer.extras.count += 1;
    Skip
}

fn dots<'s>(lexer: &mut Lexer<'s, Word<'s>>) -> Filter<usize> {
    match lexer.slice().len() {
        2 => Filter::Skip,
        length => Filter::Emit(length),
    }
}

/// Returns how many tokens and line ends a text has.
#[must_use]
pub fn count(text: &str) -> (usize, usize) {
    let mut lexer = Word::lexer(text);
    (lexer.by_ref().count(), lexer.extras.count)
}
