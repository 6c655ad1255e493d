//! Bytes that are not UTF-8.

use logos::Logos;

#[derive(Debug, Logos)]
#[logos(utf8 = false)]
#[logos(skip b"\x00+")]
pub enum Token<'s> {
    #[token(b"\xFF\xFE")]
    Order,
    #[regex(b"[\x80-\xBF]+", |lex| lex.slice())]
    High(&'s [u8]),
    #[regex("[a-z]+")]
    Word,
    #[regex(r"(?-u:[\x01-\x1F])")]
    Control,
}
