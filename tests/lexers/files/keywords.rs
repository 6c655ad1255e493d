//! Names that are keywords, and numbers of variants.

use logos::Logos;

#[derive(Logos, Clone, Copy, Debug, PartialEq, Eq)]
#[repr(u8)]
#[non_exhaustive]
pub enum Token {
    #[token("type")]
    Type = 1,
    #[token("fn")]
    Fn = b'f',
    #[token("self")]
    #[deprecated]
    This,
    #[regex("[a-z]+")]
    Name = 200,
    #[regex(" ")]
    #[doc(hidden)]
    Blank,
}

impl From<Token> for u8 {
    fn from(token: Token) -> u8 {
        token as u8
    }
}
