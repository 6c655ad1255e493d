//! Words of prose in Arabic and Hebrew, with Latin words and numbers among them.

use logos::Logos;

#[derive(Logos, Clone, Copy, Debug, PartialEq)]
#[logos(skip r"[\s\u{200E}\u{200F}]+")]
pub enum Token {
    #[token(".")]
    Stop,
    #[token(",")]
    Comma,
    #[token(":")]
    Colon,
    #[token("!")]
    Exclamation,
    #[token("?")]
    Question,
    #[token("،")]
    ArabicComma,
    #[token("؛")]
    ArabicSemicolon,
    #[token("؟")]
    ArabicQuestion,
    #[regex(r"[\u{0621}-\u{064A}\u{0671}-\u{06D3}][\u{0621}-\u{0652}\u{0670}-\u{06D3}]*", priority = 4)]
    Arabic,
    #[regex(r"[\u{05D0}-\u{05EA}][\u{0591}-\u{05BD}\u{05BF}-\u{05C7}\u{05D0}-\u{05EA}\u{05F3}]*", priority = 4)]
    Hebrew,
    #[regex(r#"[\u{05D0}-\u{05EA}]+"[\u{05D0}-\u{05EA}]"#)]
    Abbreviation,
    #[regex(r"[A-Za-z]+('[a-z]+)?", priority = 4)]
    Latin,
    #[regex(r"[0-9]+([.,:/][0-9]+)*")]
    Number,
    #[regex(r"[\u{0660}-\u{0669}]+([\u{066B}\u{066C}][\u{0660}-\u{0669}]+)*")]
    ArabicNumber,
    #[regex(r#"["«»„“”]"#)]
    Quote,
    #[regex(r"[\-–—־]")]
    Dash,
    #[regex(r"[()\[\]]")]
    Bracket,
    #[regex(r"[\p{L}\p{M}]+", priority = 1)]
    Other,
}
