//! The tokens of a language like Python.

use logos::Logos;

/// How deep a line is indented.
pub type Depth = usize;

#[derive(Logos, Debug, Clone, Copy, PartialEq)]
#[logos(skip r"[ \t\f]+")]
#[logos(skip r"\\\r?\n")]
#[logos(skip(r"#[^\n]*", allow_greedy = true))]
pub enum Token {
    #[regex(r"\r?\n[ \t]*")]
    Line,
    #[token("and")]
    And,
    #[token("class")]
    Class,
    #[token("def")]
    Def,
    #[token("elif")]
    Elif,
    #[token("else")]
    Else,
    #[token("for")]
    For,
    #[token("from")]
    From,
    #[token("if")]
    If,
    #[token("import")]
    Import,
    #[token("in")]
    In,
    #[token("is")]
    Is,
    #[token("lambda")]
    Lambda,
    #[token("not")]
    Not,
    #[token("or")]
    Or,
    #[token("pass")]
    Pass,
    #[token("return")]
    Return,
    #[token("while")]
    While,
    #[token("yield")]
    Yield,
    #[token("None")]
    #[token("True")]
    #[token("False")]
    Constant,
    #[regex(r"[\p{L}_][\p{L}\p{N}_]*")]
    Name,
    #[regex(r"[0-9](_?[0-9])*")]
    #[regex(r"0[xX](_?[0-9a-fA-F])+")]
    #[regex(r"0[oO](_?[0-7])+")]
    Integer,
    #[regex(r"[0-9]+\.[0-9]*([eE][+-]?[0-9]+)?")]
    #[regex(r"\.[0-9]+([eE][+-]?[0-9]+)?")]
    #[regex(r"[0-9]+[eE][+-]?[0-9]+")]
    Float,
    #[regex(r#"[rRbBfFuU]?"([^"\\\n]|\\(.|\n))*""#)]
    #[regex(r"[rRbBfFuU]?'([^'\\\n]|\\(.|\n))*'")]
    String,
    #[regex(r#""""([^"\\]|\\(.|\n)|"[^"\\]|""[^"\\])*""""#)]
    LongString,
    #[regex(r"[-+*/%@&|^]=?|//=?|\*\*=?|<<=?|>>=?|~")]
    Operator,
    #[regex(r"==|!=|<=|>=|<|>")]
    Comparison,
    #[regex(r"[()\[\]{}]")]
    Bracket,
    #[token("=")]
    Assign,
    #[token(":=")]
    Walrus,
    #[token(":")]
    Colon,
    #[token(",")]
    Comma,
    #[token(".")]
    Dot,
    #[token(";")]
    Semicolon,
    #[token("->")]
    Arrow,
    #[token("...")]
    Ellipsis,
}
