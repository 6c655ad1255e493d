//! Screens of mailboxes by telephone, in code page 437. Their drawings are errors.

use logos::Logos;

#[derive(Logos, Clone, Copy, Debug, PartialEq)]
#[logos(utf8 = false)]
#[logos(skip r" +")]
pub enum Token {
    #[token(".")]
    Stop,
    #[token(",")]
    Comma,
    #[token(":")]
    Colon,
    #[token("-")]
    Dash,
    #[token("/")]
    Slash,
    #[token("[")]
    Open,
    #[token("]")]
    Close,
    #[token("(")]
    RoundOpen,
    #[token(")")]
    RoundClose,
    #[regex(r"\x1b\[[0-9;]*m")]
    Color,
    #[regex(r"\x1b\[[0-9;?]*[A-HJKSTfhlsu]")]
    Cursor,
    #[regex(r"\r?\n")]
    Line,
    #[regex(r"(?-u:[A-Za-z\x80-\x9A\xA0-\xA5]+)")]
    Word,
    #[regex(r"[0-9]+")]
    Number,
    #[regex(r"[!-/:-@\\^-`{-~]", priority = 1)]
    Sign,
}
