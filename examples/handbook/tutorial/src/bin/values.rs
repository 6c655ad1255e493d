//! Prints the tokens of a sum with their values and spans.

use logos::{Lexer, Logos};

#[derive(Clone, Debug, Default, PartialEq)]
enum Fault {
    #[default]
    UnknownCharacter,
    NumberTooLarge,
}

#[derive(Logos, Debug, PartialEq)]
#[logos(skip "[ \t]+", error = Fault)]
enum Token {
    #[regex("[0-9]+", number)]
    Number(i64),
    #[token("+")]
    Plus,
    #[token("-")]
    Minus,
    #[token("*")]
    Star,
    #[token("/")]
    Slash,
    #[token("(")]
    Open,
    #[token(")")]
    Close,
}

/// Returns the value of a number.
fn number(lexer: &mut Lexer<'_, Token>) -> Result<i64, Fault> {
    lexer.slice().parse().map_err(|_| Fault::NumberTooLarge)
}

fn main() {
    for (item, span) in Token::lexer("2 * 99999999999999999999 ?").spanned() {
        match item {
            Ok(token) => println!("{span:?} {token:?}"),
            Err(fault) => println!("{span:?} {fault:?}"),
        }
    }
}
