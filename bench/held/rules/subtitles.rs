//! Subtitles in Thai and Hindi, with English words among them.

use logos::Logos;

#[derive(Logos, Clone, Copy, Debug, PartialEq)]
#[logos(skip r"[ \t\u{A0}\u{200B}-\u{200D}\u{FEFF}]+")]
pub enum Token {
    #[token("-->")]
    Arrow,
    #[token(".")]
    Stop,
    #[token(",")]
    Comma,
    #[token("?")]
    Question,
    #[token("!")]
    Exclamation,
    #[token(":")]
    Colon,
    #[token("-")]
    Dash,
    #[token("…")]
    Ellipsis,
    #[token("।")]
    Danda,
    #[token("♪")]
    Note,
    #[token("ๆ")]
    Repeat,
    #[regex(r"[0-9]{2}:[0-9]{2}:[0-9]{2},[0-9]{3}")]
    Time,
    #[regex(r"\r?\n")]
    Line,
    #[regex(r"(\r?\n){2,}")]
    Blank,
    #[regex(r"[0-9]+")]
    Number,
    #[regex(r"[\u{0E50}-\u{0E59}]+")]
    ThaiNumber,
    #[regex(r"[\u{0966}-\u{096F}]+")]
    HindiNumber,
    #[regex(r"[\u{0E01}-\u{0E3A}\u{0E40}-\u{0E45}\u{0E47}-\u{0E4E}]+")]
    Thai,
    #[regex(r"[\u{0900}-\u{0963}\u{0970}-\u{097F}]+")]
    Hindi,
    #[regex(r"[A-Za-z]+('[a-z]+)?")]
    Latin,
    #[regex(r"</?[a-z]+( [^>\n]*)?>")]
    Tag,
    #[regex(r"\{\\an[1-9]\}")]
    Position,
    #[regex(r"\.\.\.")]
    Dots,
    #[regex(r#"["'“”‘’]"#)]
    Quote,
    #[regex(r"[()\[\]]")]
    Bracket,
}
