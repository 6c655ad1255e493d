//! Two lexers.
use logos::Logos;

#[derive(Debug, Logos)]
#[logos(skip r"[ \n]+")]
pub enum Token<'s> {
    #[token("fast")]
    Fast,
    #[regex("[a-z]+", |lex| lex.slice())]
    Word(&'s str),
}

mod inner {
    #[derive(logos::Logos)]
    enum Digits {
        #[regx("a")]
        #[regex("[0-9]")]
        Digit,
        #[token("1")]
        #[logos(skip "b")]
        One,
        #[token("1", priority = 1)]
        Never,
    }
}

enum Plain {
    A,
}
