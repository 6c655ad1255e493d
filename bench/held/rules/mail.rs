//! Headers of messages, with folded lines, encoded words and signatures.

use logos::Logos;

#[derive(Logos, Clone, Copy, Debug, PartialEq)]
#[logos(skip r"[ \t]+")]
#[logos(skip r"\r?\n[ \t]+")]
pub enum Token {
    #[token(",")]
    Comma,
    #[token(";")]
    Semicolon,
    #[token(":")]
    Colon,
    #[token("<")]
    Less,
    #[token(">")]
    Greater,
    #[token("@")]
    At,
    #[token("[")]
    Open,
    #[token("]")]
    Close,
    #[regex(r"\r?\n")]
    Line,
    #[regex(r"[A-Za-z][A-Za-z0-9\-]*:", priority = 8)]
    Field,
    #[regex(r"=\?[A-Za-z0-9\-]+\?[BbQq]\?[^? \t\r\n]*\?=", priority = 9)]
    Encoded,
    #[regex(r"<[A-Za-z0-9!#$%&'*+\-/=?^_`{|}~.]+@[A-Za-z0-9.\-]+>")]
    Address,
    #[regex(r#""([^"\\\r\n]|\\[^\r\n])*""#)]
    Quoted,
    #[regex(r"\(([^()\\\r\n]|\\[^\r\n])*\)")]
    Comment,
    #[regex(r"[0-9]{2}:[0-9]{2}:[0-9]{2}")]
    Time,
    #[regex(r"[+\-][0-9]{4}", priority = 7)]
    Zone,
    #[regex(r"[0-9]+", priority = 3)]
    Number,
    #[regex(r"[A-Za-z]+", priority = 2)]
    Word,
    #[regex(r"[A-Za-z0-9!#$%&'*+\-/=?^_`{|}~.\u{80}-\u{10FFFF}]+", priority = 1)]
    Atom,
    #[regex(r#"["()\\]"#)]
    Other,
}
