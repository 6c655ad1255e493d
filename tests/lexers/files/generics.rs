//! Types that are given to parameters.

use logos::Logos;

#[derive(Debug, Clone, Logos)]
#[logos(type N = u32, type T = Option<&'s str>)]
#[logos(skip r"\s+")]
pub enum Token<'s, N: Copy, T>
where
    T: Clone,
{
    #[regex("[0-9]{1,9}", |lex| lex.slice().parse().ok())]
    Number(N),
    #[regex("[a-z]+", |lex| Some(lex.slice()).filter(|text| text.len() < 10).map(Some))]
    Word(T),
    #[token("%", |lex| lex.slice())]
    Sign(&'s str),
}

/// The lexer's tokens.
pub type Given<'s> = Token<'s, u32, Option<&'s str>>;
