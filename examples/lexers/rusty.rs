//! The tokens of a language like Rust.
#![allow(dead_code)]

use logos::Logos;

/// Blanks and comments.
pub mod trivia {
    use logos::Logos;

    /// The blanks and comments of a text.
    #[derive(Logos, Debug, Clone, Copy, PartialEq)]
    pub enum Trivia {
        #[regex(r"[ \t\r\n]+")]
        Blank,
        #[regex(r"//[^\n]*", allow_greedy = true)]
        Line,
        #[regex(r"/\*([^*]|\*+[^*/])*\*+/")]
        Block,
        #[regex(r"[^ \t\r\n/]+")]
        Other,
        #[token("/")]
        Slash,
    }
}

#[derive(Logos, Debug, Clone, Copy, PartialEq, Eq, Hash)]
#[logos(skip r"[ \t\r\n]+")]
#[logos(skip(r"//[^\n]*", allow_greedy = true))]
#[logos(skip r"/\*([^*]|\*+[^*/])*\*+/")]
#[logos(subpattern digits = r"[0-9][0-9_]*")]
#[logos(subpattern exponent = r"[eE][+-]?(?&digits)")]
pub enum Token {
    #[token("as")]
    As,
    #[token("break")]
    Break,
    #[token("const")]
    Const,
    #[token("continue")]
    Continue,
    #[token("else")]
    Else,
    #[token("enum")]
    Enum,
    #[token("false")]
    False,
    #[token("fn")]
    Fn,
    #[token("for")]
    For,
    #[token("if")]
    If,
    #[token("impl")]
    Impl,
    #[token("in")]
    In,
    #[token("let")]
    Let,
    #[token("loop")]
    Loop,
    #[token("match")]
    Match,
    #[token("mod")]
    Mod,
    #[token("mut")]
    Mut,
    #[token("pub")]
    Pub,
    #[token("return")]
    Return,
    #[token("struct")]
    Struct,
    #[token("true")]
    True,
    #[token("use")]
    Use,
    #[token("while")]
    While,
    #[regex(r"[\p{XID_Start}_]\p{XID_Continue}*")]
    Name,
    #[regex(r"'[\p{XID_Start}_]\p{XID_Continue}*")]
    Lifetime,
    #[regex(r"(?&digits)([ui](8|16|32|64|128|size))?")]
    #[regex(r"0x[0-9a-fA-F_]+")]
    #[regex(r"0b[01_]+")]
    Integer,
    #[regex(r"(?&digits)\.(?&digits)(?&exponent)?(f32|f64)?", priority = 12)]
    #[regex(r"(?&digits)(?&exponent)(f32|f64)?", priority = 12)]
    Float,
    #[regex(r#""([^"\\]|\\.)*""#)]
    #[regex(r##"r#"([^"]|"[^#])*"#"##)]
    String,
    #[regex(r"'([^'\\\n]|\\[^\n])'", priority = 20)]
    Character,
    #[token("(")]
    ParenthesisOpen,
    #[token(")")]
    ParenthesisClose,
    #[token("{")]
    BraceOpen,
    #[token("}")]
    BraceClose,
    #[token("[")]
    BracketOpen,
    #[token("]")]
    BracketClose,
    #[token(";")]
    Semicolon,
    #[token(",")]
    Comma,
    #[token(".")]
    Dot,
    #[token("..")]
    Range,
    #[token("..=")]
    RangeInclusive,
    #[token("::")]
    Path,
    #[token(":")]
    Colon,
    #[token("->")]
    Arrow,
    #[token("=>")]
    FatArrow,
    #[token("==")]
    Equal,
    #[token("!=")]
    NotEqual,
    #[token("=")]
    Assign,
    #[token("<=")]
    AtMost,
    #[token(">=")]
    AtLeast,
    #[token("<")]
    Less,
    #[token(">")]
    Greater,
    #[token("&&")]
    And,
    #[token("||")]
    Or,
    #[token("&")]
    Reference,
    #[token("|")]
    Bar,
    #[token("!")]
    Not,
    #[token("+")]
    Plus,
    #[token("-")]
    Minus,
    #[token("*")]
    Star,
    #[token("/")]
    Slash,
    #[token("%")]
    Percent,
    #[token("#")]
    Hash,
    #[token("?")]
    Question,
}
