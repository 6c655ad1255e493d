//! Tunes in ABC notation.

use logos::Logos;

#[derive(Logos, Clone, Copy, Debug, PartialEq)]
#[logos(skip r"[ \t\n]+")]
#[logos(skip(r"%[^\n]*", allow_greedy = true))]
pub enum Token {
    #[token("|")]
    Bar,
    #[token("||")]
    Double,
    #[token("|:")]
    Repeat,
    #[token(":|")]
    RepeatEnd,
    #[token("::")]
    Both,
    #[token("|]")]
    Final,
    #[token("(")]
    Slur,
    #[token(")")]
    SlurEnd,
    #[token("[")]
    Chord,
    #[token("]")]
    ChordEnd,
    #[token("{")]
    Grace,
    #[token("}")]
    GraceEnd,
    #[token("-")]
    Tie,
    #[token("/")]
    Half,
    #[token("~")]
    Roll,
    #[token(".")]
    Staccato,
    #[token("'")]
    Up,
    #[token(",")]
    Down,
    #[token("^")]
    Sharp,
    #[token("_")]
    Flat,
    #[token("=")]
    Natural,
    #[regex(r"[A-G]")]
    Low,
    #[regex(r"[a-g]")]
    High,
    #[regex(r"[xz]")]
    Rest,
    #[regex(r"[0-9]+")]
    Length,
    #[regex(r"\([2-9]")]
    Tuplet,
    #[regex(r"\[[1-9]")]
    Ending,
    #[regex(r"[<>]+")]
    Broken,
    #[regex(r"![a-z]+!")]
    Decoration,
    #[regex(r#""[^"\n]*""#)]
    Guitar,
    #[regex(r"[A-Za-z]: [^\n]*", allow_greedy = true)]
    Field,
}
