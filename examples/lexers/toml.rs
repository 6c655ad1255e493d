//! The tokens of TOML.

use logos::Logos;

/// A table of a document.
#[derive(Debug, Default)]
pub struct Table<'s> {
    pub name: &'s str,
    pub keys: Vec<&'s str>,
}

#[derive(Logos, Debug, Clone, Copy, PartialEq)]
#[logos(skip r"[ \t]+")]
#[logos(skip(r"#[^\r\n]*", allow_greedy = true))]
#[logos(subpattern date = r"[0-9]{4}-[0-9]{2}-[0-9]{2}")]
#[logos(subpattern time = r"[0-9]{2}:[0-9]{2}:[0-9]{2}(\.[0-9]+)?")]
pub enum Token<'s> {
    #[regex(r"\r?\n")]
    Line,
    #[token("[")]
    Open,
    #[token("]")]
    Close,
    #[token("{")]
    BraceOpen,
    #[token("}")]
    BraceClose,
    #[token("=")]
    Equals,
    #[token(".")]
    Dot,
    #[token(",")]
    Comma,
    #[token("true", priority = 40)]
    #[token("false", priority = 40)]
    Bool,
    #[regex(r"[A-Za-z0-9_-]+", |lex| lex.slice())]
    Key(&'s str),
    #[regex(r"[+-]?(0|[1-9](_?[0-9])*)", priority = 20)]
    #[regex(r"0x[0-9a-fA-F](_?[0-9a-fA-F])*", priority = 20)]
    Integer,
    #[regex(r"[+-]?(0|[1-9](_?[0-9])*)\.[0-9](_?[0-9])*([eE][+-]?[0-9]+)?")]
    #[regex(r"[+-]?(inf|nan)", priority = 20)]
    Float,
    #[regex(r"(?&date)([T ](?&time)(Z|[+-][0-9]{2}:[0-9]{2})?)?", priority = 30)]
    #[regex(r"(?&time)", priority = 30)]
    Date,
    #[regex(r#""([^"\\\x00-\x08\x0A-\x1F]|\\[^\n])*""#)]
    Basic,
    #[regex(r"'[^'\n]*'")]
    Literal,
    #[regex(r#""""([^"\\]|\\(.|\n)|"[^"\\]|""[^"\\])*""""#)]
    LongBasic,
}
