//! Prints the tokens of a sum.

use logos::Logos;

#[derive(Logos, Debug, PartialEq)]
#[logos(skip "[ \t]+")]
enum Token {
    #[regex("[0-9]+")]
    Number,
    #[token("+")]
    Plus,
    #[token("-")]
    Minus,
    #[token("*")]
    Star,
    #[token("/")]
    Slash,
    #[token("(")]
    Open,
    #[token(")")]
    Close,
}

fn main() {
    let mut lexer = Token::lexer("2 * (10 - 3)?");
    while let Some(item) = lexer.next() {
        match item {
            Ok(token) => println!("{token:?} {:?}", lexer.slice()),
            Err(()) => println!("no token begins with {:?}", lexer.slice()),
        }
    }
}
