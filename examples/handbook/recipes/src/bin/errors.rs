//! Errors with a message and a location.

use logos::{Lexer, Logos, Span};
use std::fmt;
use std::num::ParseIntError;

#[derive(Clone, Debug, Default, PartialEq)]
enum Fault {
    #[default]
    Unknown,
    /// No pattern matches this text.
    Unexpected { text: String, span: Span, word: String },
    /// A number is not one.
    Number(ParseIntError),
}

impl Fault {
    /// Returns the error where no pattern matches, with the last word before it.
    fn at(lexer: &mut Lexer<'_, Token>) -> Self {
        let (text, span) = (lexer.slice().to_owned(), lexer.span());
        Fault::Unexpected { text, span, word: lexer.extras.clone() }
    }
}

impl From<ParseIntError> for Fault {
    fn from(error: ParseIntError) -> Self {
        Fault::Number(error)
    }
}

impl fmt::Display for Fault {
    fn fmt(&self, f: &mut fmt::Formatter<'_>) -> fmt::Result {
        match self {
            Fault::Unknown => write!(f, "unknown error"),
            Fault::Unexpected { text, span, word } => {
                write!(f, "{text:?} at byte {} is unexpected after `{word}`", span.start)
            }
            Fault::Number(error) => write!(f, "bad number: {error}"),
        }
    }
}

#[derive(Logos, Debug, PartialEq)]
#[logos(skip " +", extras = String, error(Fault, Fault::at))]
enum Token {
    #[regex("[a-z]+", |lexer| lexer.extras = lexer.slice().to_owned())]
    Word,
    #[regex("[0-9]+", |lexer| lexer.slice().parse::<u8>())]
    Number(u8),
}

fn main() {
    for item in Token::lexer("port 80 or 8080 !") {
        match item {
            Ok(token) => println!("{token:?}"),
            Err(fault) => println!("{fault}"),
        }
    }
}
