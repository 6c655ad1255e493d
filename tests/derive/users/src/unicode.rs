//! Characters beyond ASCII.

use crate::{found, texts};
use logos::Logos;

#[test]
fn letters_of_any_script() {
    #[derive(Logos, Debug, PartialEq)]
    #[logos(skip " ")]
    enum Token {
        #[regex(r"\p{Alphabetic}+")]
        Word,
    }
    let wanted = ["ab", "жук", "日本", "עברית"].map(|it| (Ok(Token::Word), it));
    assert_eq!(texts::<Token>("ab жук 日本 עברית"), wanted);
}

#[test]
fn general_categories() {
    #[derive(Logos, Debug, PartialEq)]
    enum Token {
        #[regex(r"\p{Lu}")]
        Capital,
        #[regex(r"\p{Ll}")]
        Small,
        #[regex(r"\p{Sc}")]
        Currency,
        #[regex(r"\pN")]
        Number,
    }
    use Token::{Capital, Currency, Number, Small};
    assert_eq!(
        texts::<Token>("Äß€Ⅳ٣½"),
        [
            (Ok(Capital), "Ä"),
            (Ok(Small), "ß"),
            (Ok(Currency), "€"),
            (Ok(Number), "Ⅳ"),
            (Ok(Number), "٣"),
            (Ok(Number), "½"),
        ]
    );
}

#[test]
fn scripts() {
    #[derive(Logos, Debug, PartialEq)]
    enum Token {
        #[regex(r"\p{Cyrillic}+")]
        Cyrillic,
        #[regex(r"\p{Greek}+")]
        Greek,
        #[regex(r"\p{Han}+")]
        Han,
    }
    use Token::{Cyrillic, Greek, Han};
    let wanted = [(Ok(Cyrillic), "да"), (Ok(Greek), "ναι"), (Ok(Han), "漢字")];
    assert_eq!(texts::<Token>("даναι漢字"), wanted);
}

#[test]
fn complements() {
    #[derive(Logos, Debug, PartialEq)]
    enum Token {
        #[regex(r"\P{ASCII}+", priority = 3)]
        NotAscii,
        #[regex(r"\D")]
        NotDigit,
    }
    use Token::{NotAscii, NotDigit};
    assert_eq!(
        texts::<Token>("éüa7"),
        [(Ok(NotAscii), "éü"), (Ok(NotDigit), "a"), (Err(()), "7")]
    );
}

#[test]
fn identifiers() {
    #[derive(Logos, Debug, PartialEq)]
    enum Token {
        #[regex(r"[\p{XID_Start}_]\p{XID_Continue}*")]
        Name,
        #[regex(r"[0-9]+")]
        Digits,
    }
    use Token::{Digits, Name};
    assert_eq!(
        texts::<Token>("12_ñ3"),
        [(Ok(Digits), "12"), (Ok(Name), "_ñ3")]
    );
    // A combining mark continues a name, and does not start one.
    assert_eq!(texts::<Token>("e\u{301}"), [(Ok(Name), "e\u{301}")]);
    assert_eq!(
        texts::<Token>("\u{301}e"),
        [(Err(()), "\u{301}"), (Ok(Name), "e")]
    );
}

#[test]
fn words_blanks_and_digits() {
    #[derive(Logos, Debug, PartialEq)]
    enum Token {
        #[regex(r"\w+")]
        Word,
        #[regex(r"\s+")]
        Blank,
        #[regex(r"\d+", priority = 3)]
        Digits,
    }
    use Token::{Blank, Digits, Word};
    let wanted = [
        (Ok(Word), "naïve_٣"),
        (Ok(Blank), "\u{A0}\u{2003}"),
        (Ok(Digits), "7٣"),
    ];
    assert_eq!(texts::<Token>("naïve_٣\u{A0}\u{2003}7٣"), wanted);
}

#[test]
fn ranges_across_lengths_of_encodings() {
    #[derive(Logos, Debug, PartialEq)]
    enum Token {
        #[regex("[\u{70}-\u{810}]+")]
        Low,
        #[regex("[\u{FFF0}-\u{1000F}]")]
        High,
    }
    use Token::{High, Low};
    assert_eq!(
        found::<Token>("p\u{7F}\u{80}\u{7FF}\u{800}\u{810}"),
        [(Ok(Low), 0..12)]
    );
    assert_eq!(
        found::<Token>("o\u{811}"),
        [(Err(()), 0..1), (Err(()), 1..4)]
    );
    let wanted = [
        (Ok(High), 0..3),
        (Ok(High), 3..6),
        (Ok(High), 6..10),
        (Ok(High), 10..14),
        (Err(()), 14..18),
    ];
    assert_eq!(
        found::<Token>("\u{FFF0}\u{FFFF}\u{10000}\u{1000F}\u{10010}"),
        wanted
    );
}

#[test]
fn the_first_and_the_last_character() {
    #[derive(Logos, Debug, PartialEq)]
    enum Token {
        #[regex("[\\x00-\\u{10FFFF}]", priority = 1)]
        Any,
        #[token("\0")]
        Zero,
        #[token("\u{10FFFF}")]
        Last,
    }
    use Token::{Any, Last, Zero};
    let wanted = [
        (Ok(Zero), 0..1),
        (Ok(Any), 1..4),
        (Ok(Any), 4..7),
        (Ok(Last), 7..11),
    ];
    assert_eq!(found::<Token>("\0\u{D7FF}\u{E000}\u{10FFFF}"), wanted);
}

#[test]
fn emoji() {
    #[derive(Logos, Debug, PartialEq)]
    enum Token {
        #[token("👍")]
        Up,
        #[token("👍🏽")]
        Tinted,
        #[regex("[😀-😆]+")]
        Faces,
    }
    use Token::{Faces, Tinted, Up};
    assert_eq!(
        texts::<Token>("👍👍🏽😀😃😇"),
        [
            (Ok(Up), "👍"),
            (Ok(Tinted), "👍🏽"),
            (Ok(Faces), "😀😃"),
            (Err(()), "😇"),
        ]
    );
}
