//! Tokens and patterns without callbacks.

use crate::{found, items, texts};
use logos::Logos;

#[derive(Logos, Debug, PartialEq)]
#[logos(skip r"[ \t]+")]
enum Token {
    #[token("swift")]
    Swift,
    #[token("!")]
    Bang,
    #[regex("[a-z]+")]
    Word,
    #[regex("[0-9]+")]
    Number,
}

use Token::{Bang, Number, Swift, Word};

#[test]
fn no_input() {
    assert_eq!(found::<Token>(""), []);
    assert_eq!(Token::lexer("").next(), None);
}

#[test]
fn nothing_but_skipped_text() {
    assert_eq!(found::<Token>(" \t "), []);
}

#[test]
fn tokens_with_spans() {
    let wanted = [
        (Ok(Word), 0..3),
        (Ok(Swift), 4..9),
        (Ok(Number), 11..13),
        (Ok(Bang), 13..14),
    ];
    assert_eq!(found::<Token>("the swift  42!"), wanted);
}

#[test]
fn a_keyword_inside_of_a_word() {
    let wanted = [
        (Ok(Word), "swifter"),
        (Ok(Word), "aswift"),
        (Ok(Swift), "swift"),
    ];
    assert_eq!(texts::<Token>("swifter aswift swift"), wanted);
}

#[test]
fn no_blank_between_tokens() {
    let wanted = [
        (Ok(Word), "a"),
        (Ok(Number), "1"),
        (Ok(Word), "b"),
        (Ok(Bang), "!"),
    ];
    assert_eq!(texts::<Token>("a1b!"), wanted);
}

#[test]
fn errors_between_tokens() {
    let wanted = [
        (Ok(Word), "a"),
        (Err(()), "?"),
        (Err(()), "é"),
        (Ok(Word), "b"),
    ];
    assert_eq!(texts::<Token>("a?éb"), wanted);
}

#[test]
fn nothing_after_the_end() {
    let mut lexer = Token::lexer("a");
    assert_eq!(lexer.next(), Some(Ok(Word)));
    assert_eq!(lexer.next(), None);
    assert_eq!(lexer.next(), None);
    assert_eq!(lexer.span(), 1..1);
    assert_eq!(lexer.slice(), "");
}

#[test]
fn several_patterns_of_one_variant() {
    #[derive(Logos, Debug, PartialEq)]
    enum Token {
        #[token("yes")]
        #[token("true")]
        #[regex("[1-9]")]
        On,
        #[token("no")]
        #[token("false")]
        #[token("0")]
        Off,
    }
    let wanted = [
        Ok(Token::On),
        Ok(Token::Off),
        Ok(Token::On),
        Ok(Token::Off),
        Ok(Token::On),
    ];
    assert_eq!(items::<Token>("yesnotruefalse7"), wanted);
}

#[test]
fn a_variant_without_a_pattern() {
    #[derive(Logos, Debug, PartialEq)]
    enum Token {
        #[token("a")]
        A,
        #[allow(dead_code)]
        Never,
        #[allow(dead_code)]
        Value(u8),
    }
    assert_eq!(texts::<Token>("ab"), [(Ok(Token::A), "a"), (Err(()), "b")]);
}

#[test]
fn an_enum_without_patterns() {
    #[derive(Logos, Debug, PartialEq)]
    #[allow(dead_code)]
    enum Token {
        Never,
    }
    assert_eq!(texts::<Token>("aß"), [(Err(()), "a"), (Err(()), "ß")]);
}

#[test]
fn a_token_is_no_pattern() {
    #[derive(Logos, Debug, PartialEq)]
    enum Token {
        #[token("a+(b)")]
        Literal,
        #[token(r"\d")]
        Escape,
        #[token("\n")]
        Line,
    }
    let wanted = [
        (Ok(Token::Literal), "a+(b)"),
        (Ok(Token::Escape), r"\d"),
        (Ok(Token::Line), "\n"),
    ];
    assert_eq!(texts::<Token>("a+(b)\\d\n"), wanted);
}

#[test]
fn raw_literals() {
    #[derive(Logos, Debug, PartialEq)]
    enum Token {
        #[regex(r#""[^"]*""#)]
        Text,
        #[token(r##""#"##)]
        Mark,
    }
    let wanted = [(Ok(Token::Text), "\"a b\""), (Ok(Token::Mark), "\"#")];
    assert_eq!(texts::<Token>("\"a b\"\"#"), wanted);
}

#[test]
fn derived_traits_and_discriminants_stay() {
    #[derive(Logos, Clone, Copy, Debug, PartialEq, Eq, PartialOrd, Ord, Hash)]
    #[repr(u8)]
    enum Token {
        #[token("a")]
        A = 7,
        #[token("b")]
        B,
    }
    let numbers: Vec<u8> = Token::lexer("ba").map(|item| item.unwrap() as u8).collect();
    assert_eq!(numbers, [8, 7]);
    assert!(Token::A < Token::B);
}

#[test]
fn a_lexer_is_an_iterator() {
    assert_eq!(
        Token::lexer("a 1 b 2")
            .flatten()
            .filter(|it| *it == Word)
            .count(),
        2
    );
    assert_eq!(
        Token::lexer("a ? b").collect::<Result<Vec<_>, ()>>(),
        Err(())
    );
    assert_eq!(
        Token::lexer("a b").collect::<Result<Vec<_>, ()>>(),
        Ok(vec![Word, Word])
    );
    let mut lexer = Token::lexer("a 1 b 2");
    assert_eq!(lexer.by_ref().nth(1), Some(Ok(Number)));
    assert_eq!(lexer.remainder(), " b 2");
}

#[test]
fn a_long_text() {
    let text = "word 12 ".repeat(5_000);
    let wanted = |at: usize| match at % 2 {
        0 => (Ok(Word), at / 2 * 8..at / 2 * 8 + 4),
        _ => (Ok(Number), at / 2 * 8 + 5..at / 2 * 8 + 7),
    };
    let all = found::<Token>(&text);
    assert_eq!(all.len(), 10_000);
    assert!(all
        .into_iter()
        .enumerate()
        .all(|(at, item)| item == wanted(at)));
}

#[test]
fn a_long_token() {
    for length in [
        1, 7, 8, 9, 15, 16, 17, 63, 64, 65, 4_607, 4_608, 4_609, 20_000,
    ] {
        let text = format!("{}7", "q".repeat(length));
        assert_eq!(
            found::<Token>(&text),
            [(Ok(Word), 0..length), (Ok(Number), length..length + 1)]
        );
    }
}
