//! Definitions of messages for Protocol Buffers. Comments are tokens, since they are documentation.

use logos::Logos;

#[derive(Logos, Clone, Copy, Debug, PartialEq)]
#[logos(skip r"[ \t\r\n]+")]
pub enum Token {
    #[token("syntax")]
    Syntax,
    #[token("import")]
    Import,
    #[token("package")]
    Package,
    #[token("option")]
    Option,
    #[token("message")]
    Message,
    #[token("enum")]
    Enum,
    #[token("service")]
    Service,
    #[token("rpc")]
    Rpc,
    #[token("returns")]
    Returns,
    #[token("repeated")]
    Repeated,
    #[token("optional")]
    Optional,
    #[token("oneof")]
    OneOf,
    #[token("map")]
    Map,
    #[token("reserved")]
    Reserved,
    #[token("stream")]
    Stream,
    #[token("true")]
    True,
    #[token("false")]
    False,
    #[token("=")]
    Equals,
    #[token(";")]
    Semicolon,
    #[token(",")]
    Comma,
    #[token(".")]
    Dot,
    #[token("{")]
    BraceOpen,
    #[token("}")]
    BraceClose,
    #[token("[")]
    BracketOpen,
    #[token("]")]
    BracketClose,
    #[token("(")]
    Open,
    #[token(")")]
    Close,
    #[token("<")]
    Less,
    #[token(">")]
    Greater,
    #[regex(r"[A-Za-z_][A-Za-z0-9_]*")]
    Name,
    #[regex(r"-?(0|[1-9][0-9]*)")]
    Integer,
    #[regex(r"0[xX][0-9a-fA-F]+")]
    Hexadecimal,
    #[regex(r"[0-9]+\.[0-9]+([eE][+\-]?[0-9]+)?")]
    Float,
    #[regex(r#""([^"\\\n]|\\[^\n])*""#)]
    Text,
    #[regex(r"//[^\n]*", allow_greedy = true)]
    Comment,
    #[regex(r"/\*([^*]|\*+[^*/])*\*+/")]
    Block,
}
