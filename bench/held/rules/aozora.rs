//! Japanese novels with the marks of the library Aozora Bunko: readings of words, and notes.

use logos::Logos;

#[derive(Logos, Clone, Copy, Debug, PartialEq)]
#[logos(skip r"\u{3000}+")]
pub enum Token {
    #[token("、")]
    Comma,
    #[token("。")]
    Stop,
    #[token("「")]
    Open,
    #[token("」")]
    Close,
    #[token("『")]
    TitleOpen,
    #[token("』")]
    TitleClose,
    #[token("（")]
    RoundOpen,
    #[token("）")]
    RoundClose,
    #[token("・")]
    Middle,
    #[token("｜")]
    Base,
    #[token("※")]
    Missing,
    #[token("？")]
    Question,
    #[token("！")]
    Exclamation,
    #[regex(r"[\u{3041}-\u{3096}\u{309D}\u{309E}]+")]
    Hiragana,
    #[regex(r"[\u{30A1}-\u{30FA}\u{30FC}-\u{30FE}]+")]
    Katakana,
    #[regex(r"[\u{3400}-\u{4DBF}\u{4E00}-\u{9FFF}\u{3005}-\u{3007}]+")]
    Kanji,
    #[regex(r"《[^《》\n]+》")]
    Reading,
    #[regex(r"［＃[^［］\n]*］")]
    Note,
    #[regex(r"[…‥]+")]
    Dots,
    #[regex(r"[―─]+")]
    Dash,
    #[regex(r"[0-9０-９]+")]
    Number,
    #[regex(r"[A-Za-zＡ-Ｚａ-ｚ]+")]
    Latin,
    #[regex(r"\r?\n")]
    Line,
    #[regex(r"[^\x00-\x7F]", priority = 1)]
    Other,
}
