//! The tokens.

use logos::{Lexer, Logos};
use std::num::{IntErrorKind, ParseIntError};

/// Why a text is no token.
#[derive(Default, Debug, Clone, PartialEq)]
pub enum LexingError {
    /// The number is too large.
    InvalidInteger(String),
    /// No token begins with this character.
    NonAsciiCharacter(char),
    /// Anything else.
    #[default]
    Other,
}

impl LexingError {
    fn from_lexer<'s>(lex: &mut Lexer<'s, Token<'s>>) -> Self {
        match lex.slice().chars().next() {
            Some(c) if !c.is_ascii() => LexingError::NonAsciiCharacter(c),
            _ => LexingError::Other,
        }
    }
}

impl From<ParseIntError> for LexingError {
    fn from(error: ParseIntError) -> Self {
        match error.kind() {
            IntErrorKind::PosOverflow => LexingError::InvalidInteger("overflow".to_owned()),
            _ => LexingError::InvalidInteger("other".to_owned()),
        }
    }
}

/// A token.
#[derive(Debug, Logos, PartialEq, Clone)]
#[logos(error(LexingError, LexingError::from_lexer))]
#[logos(skip r"[ \t\r\n\f]+")]
#[logos(skip(r"//[^\n]*", allow_greedy = true))]
pub enum Token<'source> {
    /// `+`
    #[token("+")]
    Plus,
    /// `-`
    #[token("-")]
    Minus,
    /// `*`
    #[token("*")]
    Times,
    /// `(`
    #[token("(")]
    Open,
    /// `)`
    #[token(")")]
    Close,
    /// A number.
    #[regex("[0-9]+", |lex| lex.slice().parse())]
    #[regex("0x[0-9a-fA-F]+", |lex| i64::from_str_radix(&lex.slice()[2..], 16))]
    Integer(i64),
    /// A name, which stands for its length.
    #[regex("[a-z]+", |lex| lex.slice())]
    Constant(&'source str),
}
