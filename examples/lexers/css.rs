//! The tokens of CSS.

use logos::Logos;

/// How often a selector counts.
#[derive(Debug, Clone, Copy, PartialEq, Eq, PartialOrd, Ord)]
pub struct Specificity(pub u32, pub u32, pub u32);

#[derive(Logos, Debug, Clone, Copy, PartialEq)]
#[logos(skip r"/\*([^*]|\*+[^*/])*\*+/")]
#[logos(subpattern escape = r"\\([0-9a-fA-F]{1,6}[ \n\t]?|[^\n0-9a-fA-F])")]
#[logos(subpattern start = r"([a-zA-Z_]|[^\x00-\x7F]|(?&escape))")]
#[logos(subpattern part = r"([a-zA-Z0-9_-]|[^\x00-\x7F]|(?&escape))")]
#[logos(subpattern name = r"(--|-?(?&start))(?&part)*")]
#[logos(subpattern number = r"[+-]?([0-9]+(\.[0-9]+)?|\.[0-9]+)([eE][+-]?[0-9]+)?")]
pub enum Token {
    #[regex(r"[ \t\r\n\f]+")]
    Blank,
    #[regex(r"(?&name)")]
    Name,
    #[regex(r"(?&name)\(")]
    Function,
    #[regex(r#"url\([ \t\n]*[^"'() \t\n\\\x00-\x1F]+[ \t\n]*\)"#)]
    Url,
    #[regex(r"@(?&name)")]
    AtKeyword,
    #[regex(r"#(?&part)+")]
    Hash,
    #[regex(r#""([^"\\\n]|(?&escape)|\\\n)*""#)]
    #[regex(r"'([^'\\\n]|(?&escape)|\\\n)*'")]
    String,
    #[regex(r"(?&number)", priority = 10)]
    Number,
    #[regex(r"(?&number)%")]
    Percentage,
    #[regex(r"(?&number)(?&name)", priority = 5)]
    Dimension,
    #[token("<!--")]
    CommentOpen,
    #[token("-->")]
    CommentClose,
    #[token(":")]
    Colon,
    #[token(";")]
    Semicolon,
    #[token(",")]
    Comma,
    #[token("{")]
    BraceOpen,
    #[token("}")]
    BraceClose,
    #[token("(")]
    ParenthesisOpen,
    #[token(")")]
    ParenthesisClose,
    #[token("[")]
    BracketOpen,
    #[token("]")]
    BracketClose,
    #[regex(r"[.>+~*|=^$/!&<-]")]
    Sign,
}
