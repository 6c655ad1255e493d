//! A package with a lexer, and one in a dependency.

use logos::Logos;
use words::Word;

#[derive(Logos, Clone, Copy, Debug, PartialEq)]
enum Token {
    #[token("+")]
    Plus,
    #[regex("[a-zA-Z ]+", |lex| Word::lexer(lex.slice()).last().and_then(Result::ok))]
    Words(Word),
}

fn main() {
    println!("{:?}", Token::lexer("a B+c").collect::<Vec<_>>());
}
