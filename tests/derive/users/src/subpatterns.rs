//! Patterns with names.

use crate::{found, texts};
use logos::Logos;

#[test]
fn a_pattern_used_twice() {
    #[derive(Logos, Debug, PartialEq)]
    #[logos(subpattern digit = "[0-9]")]
    enum Token {
        #[regex("(?&digit)+")]
        Integer,
        #[regex(r"(?&digit)+\.(?&digit)+")]
        Decimal,
    }
    use Token::{Decimal, Integer};
    assert_eq!(texts::<Token>("1.25"), [(Ok(Decimal), "1.25")]);
    assert_eq!(texts::<Token>("12."), [(Ok(Integer), "12"), (Err(()), ".")]);
}

#[test]
fn a_pattern_in_a_pattern() {
    #[derive(Logos, Debug, PartialEq)]
    #[logos(subpattern letter = "[a-z]")]
    #[logos(subpattern name = "(?&letter)((?&letter)|[0-9])*", subpattern path = "(?&name)(/(?&name))*")]
    enum Token {
        #[regex("(?&path)")]
        Path,
        #[token("/")]
        Slash,
    }
    use Token::{Path, Slash};
    assert_eq!(
        texts::<Token>("usr/lib64/a/"),
        [(Ok(Path), "usr/lib64/a"), (Ok(Slash), "/")]
    );
}

#[test]
fn alternatives_stay_together() {
    #[derive(Logos, Debug, PartialEq)]
    #[logos(subpattern side = "left|right")]
    enum Token {
        #[regex("<(?&side)>")]
        Side,
    }
    assert_eq!(
        texts::<Token>("<left><right>"),
        [(Ok(Token::Side), "<left>"), (Ok(Token::Side), "<right>")]
    );
    assert_eq!(
        texts::<Token>("right"),
        ["r", "i", "g", "h", "t"].map(|it| (Err(()), it))
    );
}

#[test]
fn a_repetition_of_a_whole_pattern() {
    #[derive(Logos, Debug, PartialEq)]
    #[logos(subpattern ab = "ab")]
    enum Token {
        #[regex("(?&ab){2}c")]
        Twice,
    }
    assert_eq!(texts::<Token>("ababc"), [(Ok(Token::Twice), "ababc")]);
    assert_eq!(
        texts::<Token>("abbc"),
        [(Err(()), "ab"), (Err(()), "b"), (Err(()), "c")]
    );
}

#[test]
fn flags_end_with_the_pattern() {
    #[derive(Logos, Debug, PartialEq)]
    #[logos(subpattern any = "(?i)x")]
    enum Token {
        #[regex("(?&any)y")]
        Xy,
    }
    assert_eq!(
        texts::<Token>("Xyxy"),
        [(Ok(Token::Xy), "Xy"), (Ok(Token::Xy), "xy")]
    );
    assert_eq!(texts::<Token>("xY"), [(Err(()), "x"), (Err(()), "Y")]);
}

#[test]
fn a_pattern_in_a_skip() {
    #[derive(Logos, Debug, PartialEq)]
    #[logos(subpattern blank = r"[ \t]")]
    #[logos(skip "(?&blank)+")]
    enum Token {
        #[token("a")]
        A,
    }
    assert_eq!(found::<Token>(" \ta "), [(Ok(Token::A), 2..3)]);
}

#[test]
fn a_pattern_of_bytes() {
    #[derive(Logos, Debug, PartialEq)]
    #[logos(utf8 = false, subpattern high = br"[\x80-\xFF]")]
    enum Token {
        #[regex(b"(?&high)+")]
        High,
        #[regex("[a-z](?&high)")]
        Mixed,
    }
    use Token::{High, Mixed};
    assert_eq!(
        found::<Token>(b"\x80\xFFa\xFE"),
        [(Ok(High), 0..2), (Ok(Mixed), 2..4)]
    );
}

#[test]
fn a_pattern_with_properties() {
    #[derive(Logos, Debug, PartialEq)]
    #[logos(subpattern name = r"\p{XID_Start}\p{XID_Continue}*")]
    enum Token<'s> {
        #[regex("@(?&name)")]
        At(&'s str),
        #[regex("(?&name)")]
        Name(&'s str),
    }
    use Token::{At, Name};
    assert_eq!(
        texts::<Token>("@naïve1ж"),
        [(Ok(At("@naïve1ж")), "@naïve1ж")]
    );
    assert_eq!(
        texts::<Token>("ж@ж"),
        [(Ok(Name("ж")), "ж"), (Ok(At("@ж")), "@ж")]
    );
}

#[test]
fn an_unused_pattern() {
    #[derive(Logos, Debug, PartialEq)]
    #[logos(subpattern unused = "x*")]
    enum Token {
        #[token("x")]
        X,
    }
    assert_eq!(texts::<Token>("x"), [(Ok(Token::X), "x")]);
}
