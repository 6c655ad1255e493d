//! Modules in Erlang.

use logos::Logos;

#[derive(Logos, Clone, Copy, Debug, PartialEq)]
#[logos(skip r"[ \t\r\n]+")]
#[logos(skip(r"%[^\n]*", allow_greedy = true))]
pub enum Token {
    #[token("after")]
    After,
    #[token("begin")]
    Begin,
    #[token("case")]
    Case,
    #[token("catch")]
    Catch,
    #[token("div")]
    Div,
    #[token("end")]
    End,
    #[token("fun")]
    Fun,
    #[token("if")]
    If,
    #[token("of")]
    Of,
    #[token("receive")]
    Receive,
    #[token("rem")]
    Rem,
    #[token("try")]
    Try,
    #[token("when")]
    When,
    #[token("andalso")]
    AndAlso,
    #[token("orelse")]
    OrElse,
    #[token("not")]
    Not,
    #[token("->")]
    Arrow,
    #[token(".")]
    Dot,
    #[regex(r"[a-z][A-Za-z0-9_@]*")]
    Atom,
    #[regex(r"'([^'\\\n]|\\[^\n])*'")]
    Quoted,
    #[regex(r"[A-Z_][A-Za-z0-9_@]*")]
    Variable,
    #[regex(r"[0-9]+")]
    Integer,
    #[regex(r"[0-9]{1,2}#[0-9a-zA-Z]+")]
    Based,
    #[regex(r"[0-9]+\.[0-9]+([eE][+\-]?[0-9]+)?")]
    Float,
    #[regex(r"\$(\\[^\n]|[^\\\n])")]
    Character,
    #[regex(r#""([^"\\]|\\(.|\n))*""#)]
    Text,
    #[regex(r"\?[A-Za-z_]+")]
    Macro,
    #[regex(r"<-|=>|:=|\|\||==|/=|=<|>=|=:=|=/=|\+\+|--|::|<<|>>")]
    Operator,
    #[regex(r"[=+\-*/<>!|#:]")]
    Sign,
    #[regex(r"[()\[\]{},;]")]
    Punctuation,
}
