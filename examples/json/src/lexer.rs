//! The lexer.

use logos::Logos;

/// The tokens of JSON with comments, and malformed tokens, for exact error messages.
#[derive(Logos, Clone, Copy, Debug, PartialEq)]
#[logos(skip r"[ \t\r\n]+")]
#[logos(skip(r"//[^\n]*", allow_greedy = true))]
#[logos(skip r"/\*([^*]|\*+[^*/])*\*+/")]
#[logos(subpattern whole = r"0|[1-9][0-9]*")]
#[logos(subpattern fraction = r"\.[0-9]+")]
#[logos(subpattern exponent = r"[eE][+\-]?[0-9]+")]
#[logos(subpattern piece = r#"[^"\\\x00-\x1F]|\\["\\/bfnrt]|\\u[0-9a-fA-F]{4}"#)]
pub enum Token {
    #[token("{")]
    BraceOpen,
    #[token("}")]
    BraceClose,
    #[token("[")]
    BracketOpen,
    #[token("]")]
    BracketClose,
    #[token(":")]
    Colon,
    #[token(",")]
    Comma,
    #[token("null")]
    Null,
    #[token("true", |_| true)]
    #[token("false", |_| false)]
    Boolean(bool),
    #[regex(r"-?(?&whole)")]
    Integer,
    #[regex(r"-?(?&whole)(?&fraction)")]
    Decimal,
    #[regex(r"-?(?&whole)(?&fraction)?(?&exponent)")]
    Scientific,
    #[regex(r#""(?&piece)*""#)]
    String,

    // Malformed tokens.
    #[regex(r"-?0[0-9]+")]
    LeadingZero,
    #[regex(r"-?(?&whole)\.")]
    #[regex(r"-?(?&fraction)")]
    LonePoint,
    #[regex(r"\+[0-9]+(?&fraction)?")]
    PlusSign,
    #[regex(r#""(?&piece)*"#)]
    UnclosedString,
    #[regex(r#""(?&piece)*\\[^"\\/bfnrtu\n]"#)]
    BadEscape,
    #[regex(r#""(?&piece)*\\u[0-9a-fA-F]{0,3}"#)]
    ShortEscape,
    #[regex(r"'[^'\n]*'")]
    SingleQuoted,
    #[regex(r"/\*([^*]|\*+[^*/])*\**")]
    UnclosedComment,
    #[regex(r"[a-zA-Z_][a-zA-Z0-9_]*")]
    Word,
}
