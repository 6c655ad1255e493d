//! Games of chess in PGN, with the comments and clocks of players.

use logos::Logos;

#[derive(Logos, Clone, Copy, Debug, PartialEq)]
#[logos(skip r"[ \t\r\n]+")]
#[logos(skip(r";[^\n]*", allow_greedy = true))]
pub enum Token {
    #[token("[")]
    TagOpen,
    #[token("]")]
    TagClose,
    #[token("(")]
    LineOpen,
    #[token(")")]
    LineClose,
    #[token("*")]
    Unfinished,
    #[regex(r"[0-9]+\.{0,3}")]
    Count,
    #[regex(r"[KQRBN][a-h]?[1-8]?x?[a-h][1-8][+#]?")]
    Piece,
    #[regex(r"([a-h]x)?[a-h][1-8](=[QRBN])?[+#]?")]
    Pawn,
    #[regex(r"O-O(-O)?[+#]?")]
    Castle,
    #[regex(r"1-0|0-1|1/2-1/2")]
    Result,
    #[regex(r"\$[0-9]+")]
    Glyph,
    #[regex(r"[!?][!?]?")]
    Mark,
    #[regex(r"\{[^}]*\}")]
    Comment,
    #[regex(r#""([^"\\\n]|\\[^\n])*""#)]
    Text,
    #[regex(r"[A-Za-z][A-Za-z0-9_]*", priority = 1)]
    Name,
}
