//! The tokens of SQL.

use logos::{Lexer, Logos};

/// A statement is read up to this token.
pub const END: Token = Token::Semicolon;

#[derive(Logos, Debug, Clone, Copy, PartialEq, Eq)]
#[logos(skip r"[ \t\r\n]+")]
#[logos(skip(r"--[^\n]*", allow_greedy = true))]
#[logos(skip r"/\*([^*]|\*+[^*/])*\*+/")]
pub enum Token {
    #[token("select", ignore(case))]
    Select,
    #[token("from", ignore(case))]
    From,
    #[token("where", ignore(case))]
    Where,
    #[token("insert", ignore(case))]
    Insert,
    #[token("into", ignore(case))]
    Into,
    #[token("values", ignore(case))]
    Values,
    #[token("update", ignore(case))]
    Update,
    #[token("set", ignore(case))]
    Set,
    #[token("delete", ignore(case))]
    Delete,
    #[token("join", ignore(case))]
    Join,
    #[token("on", ignore(case))]
    On,
    #[token("as", ignore(case))]
    As,
    #[token("and", ignore(case))]
    And,
    #[token("or", ignore(case))]
    Or,
    #[token("not", ignore(case))]
    Not,
    #[token("null", ignore(case))]
    Null,
    #[token("order", ignore(case))]
    Order,
    #[token("by", ignore(case))]
    By,
    #[token("limit", ignore(case))]
    Limit,
    #[regex("[a-zA-Z_][a-zA-Z0-9_]*")]
    Name,
    #[regex(r#""([^"]|"")+""#)]
    QuotedName,
    #[regex("'([^']|'')*'")]
    String,
    #[regex(r"[0-9]+")]
    Integer,
    #[regex(r"[0-9]+\.[0-9]*([eE][+-]?[0-9]+)?")]
    Decimal,
    #[regex(r"[?:$@][a-zA-Z0-9_]*")]
    Parameter,
    #[regex(r"<>|!=|<=|>=|=|<|>")]
    Comparison,
    #[regex(r"\|\||[-+*/%]")]
    Operator,
    #[token("(")]
    Open,
    #[token(")")]
    Close,
    #[token(",")]
    Comma,
    #[token(".")]
    Dot,
    #[token(";")]
    Semicolon,
}

/// Returns how many tokens there are up to the end of a statement.
pub fn length(mut lexer: Lexer<'_, Token>) -> usize {
    lexer.by_ref().take_while(|token| *token != Ok(END)).count()
}
