//! An error type, and what makes its values.

use logos::Logos;

/// What is wrong.
#[derive(Debug, Clone, Default, PartialEq)]
pub enum Wrong {
    #[default]
    Unknown,
    At(usize),
}

impl Wrong {
    fn at(lex: &mut logos::Lexer<Token>) -> Wrong {
        Wrong::At(lex.span().start)
    }
}

#[derive(Logos, Debug, PartialEq)]
#[logos(error(Wrong, Wrong::at))]
#[logos(skip " ")]
pub enum Token {
    #[regex("[a-z]+")]
    Word,
}

/// The same with a closure.
#[derive(Logos, Debug, PartialEq)]
#[logos(error(Wrong, |lex| Wrong::At(lex.span().end)))]
pub enum Other {
    #[regex("[a-z]+")]
    Word,
}
