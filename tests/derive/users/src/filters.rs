//! Callbacks that answer `Skip`, `Filter` and `FilterResult`.

use crate::{found, items, texts};
use logos::{skip, Filter, FilterResult, Lexer, Logos, Skip};

#[test]
fn the_function_skip() {
    #[derive(Logos, Debug, PartialEq)]
    enum Token {
        #[regex("[ \n]+", skip)]
        Blank,
        #[regex("[a-z]+")]
        Word,
    }
    assert_eq!(
        found::<Token>(" a\nbc "),
        [(Ok(Token::Word), 1..2), (Ok(Token::Word), 3..5)]
    );
}

#[test]
fn the_function_skip_by_its_path() {
    #[derive(Logos, Debug, PartialEq)]
    enum Token {
        #[token(",", ::logos::skip)]
        Comma,
        #[token("a")]
        A,
    }
    assert_eq!(texts::<Token>(",a,,"), [(Ok(Token::A), "a")]);
}

#[test]
fn the_value_skip() {
    #[derive(Logos, Debug, PartialEq)]
    enum Token {
        #[regex("#[a-z]*", |_| Skip)]
        Comment,
        #[token("a")]
        A,
    }
    assert_eq!(found::<Token>("#aa#"), []);
    assert_eq!(found::<Token>("a#a"), [(Ok(Token::A), 0..1)]);
}

#[test]
fn filter_without_a_value() {
    #[derive(Logos, Debug, PartialEq)]
    enum Token {
        #[regex("[a-z]+", |lex| if lex.slice().len() > 2 { Filter::Emit(()) } else { Filter::Skip })]
        Long,
        #[token(" ", skip)]
        Blank,
    }
    assert_eq!(
        texts::<Token>("a abc ab xyzw"),
        [(Ok(Token::Long), "abc"), (Ok(Token::Long), "xyzw")]
    );
}

#[test]
fn filter_with_a_value() {
    #[derive(Logos, Debug, PartialEq)]
    enum Token {
        #[regex("[0-9]", odd)]
        Odd(u32),
    }
    fn odd(lex: &mut Lexer<Token>) -> Filter<u32> {
        match lex.slice().parse() {
            Ok(number) if number % 2 == 1 => Filter::Emit(number),
            _ => Filter::Skip,
        }
    }
    assert_eq!(
        items::<Token>("12345"),
        [Ok(Token::Odd(1)), Ok(Token::Odd(3)), Ok(Token::Odd(5))]
    );
}

#[test]
fn filter_result_without_a_value() {
    #[derive(Logos, Debug, PartialEq)]
    enum Token {
        #[regex("[a-c]", |lex| match lex.slice() {
            "a" => FilterResult::Emit(()),
            "b" => FilterResult::Skip,
            _ => FilterResult::Error(()),
        })]
        Letter,
    }
    assert_eq!(
        texts::<Token>("abcba"),
        [
            (Ok(Token::Letter), "a"),
            (Err(()), "c"),
            (Ok(Token::Letter), "a"),
        ]
    );
}

#[derive(Clone, Debug, Default, PartialEq)]
struct Fault(&'static str);

#[test]
fn filter_result_with_a_value_and_an_error() {
    #[derive(Logos, Debug, PartialEq)]
    #[logos(error = Fault)]
    enum Token {
        #[regex("[0-9]+", small)]
        Small(u8),
    }
    fn small(lex: &mut Lexer<Token>) -> FilterResult<u8, Fault> {
        match lex.slice().parse() {
            Ok(0) => FilterResult::Skip,
            Ok(number) => FilterResult::Emit(number),
            Err(_) => FilterResult::Error(Fault("large")),
        }
    }
    assert_eq!(items::<Token>("12"), [Ok(Token::Small(12))]);
    assert_eq!(items::<Token>("0"), []);
    assert_eq!(items::<Token>("300"), [Err(Fault("large"))]);
    assert_eq!(items::<Token>("?"), [Err(Fault(""))]);
}

#[test]
fn a_result_of_skip() {
    #[derive(Logos, Debug, PartialEq)]
    #[logos(error = Fault)]
    enum Token {
        #[regex("/[^/]*/?", comment)]
        Comment,
        #[token("a")]
        A,
    }
    fn comment(lex: &mut Lexer<Token>) -> Result<Skip, Fault> {
        match lex.slice().len() > 1 && lex.slice().ends_with('/') {
            true => Ok(Skip),
            false => Err(Fault("open")),
        }
    }
    assert_eq!(
        texts::<Token>("a/aa/a"),
        [(Ok(Token::A), "a"), (Ok(Token::A), "a")]
    );
    assert_eq!(
        texts::<Token>("a/aa"),
        [(Ok(Token::A), "a"), (Err(Fault("open")), "/aa")]
    );
}

#[test]
fn what_is_skipped_is_not_in_the_next_span() {
    #[derive(Logos, Debug, PartialEq)]
    enum Token {
        #[token("--", dashes)]
        Dashes,
        #[regex("[a-z]+")]
        Word,
    }
    fn dashes(lex: &mut Lexer<Token>) -> Skip {
        let line = lex
            .remainder()
            .find('\n')
            .map_or(lex.remainder().len(), |at| at + 1);
        lex.bump(line);
        Skip
    }
    assert_eq!(
        found::<Token>("a--x y\nbc--"),
        [(Ok(Token::Word), 0..1), (Ok(Token::Word), 7..9)]
    );
}

#[test]
fn a_filter_of_an_option() {
    #[derive(Logos, Debug, PartialEq)]
    enum Token {
        #[regex("[0-9]+", |lex| match lex.slice().parse::<u8>() {
            Ok(0) => FilterResult::Skip,
            Ok(number) => FilterResult::Emit(Some(number)),
            Err(_) => FilterResult::Error(()),
        })]
        Number(Option<u8>),
    }
    assert_eq!(items::<Token>("9"), [Ok(Token::Number(Some(9)))]);
    assert_eq!(items::<Token>("00"), []);
    assert_eq!(items::<Token>("256"), [Err(())]);
}
