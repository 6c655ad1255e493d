//! Error types, and callbacks that make errors.

use crate::{found, items, texts};
use logos::{Lexer, Logos};
use std::num::{IntErrorKind, ParseIntError};

#[derive(Clone, Debug, Default, PartialEq)]
enum Fault {
    #[default]
    Unknown,
    Integer(String),
    Character(char),
    Other(&'static str),
}

impl From<ParseIntError> for Fault {
    fn from(error: ParseIntError) -> Fault {
        match error.kind() {
            IntErrorKind::PosOverflow => Fault::Integer("overflow".into()),
            _ => Fault::Integer("other".into()),
        }
    }
}

impl From<&'static str> for Fault {
    fn from(text: &'static str) -> Fault {
        Fault::Other(text)
    }
}

#[test]
fn the_unit_type_by_default() {
    #[derive(Logos, Debug, PartialEq)]
    enum Token {
        #[token("a")]
        A,
    }
    let error: Option<Result<Token, ()>> = Token::lexer("b").next();
    assert_eq!(error, Some(Err(())));
}

#[test]
fn the_default_of_a_type() {
    #[derive(Logos, Debug, PartialEq)]
    #[logos(error = Fault)]
    enum Token {
        #[token("a")]
        A,
    }
    assert_eq!(items::<Token>("ab"), [Ok(Token::A), Err(Fault::Unknown)]);
}

#[test]
fn errors_are_converted() {
    #[derive(Logos, Debug, PartialEq)]
    #[logos(error(Fault), skip " ")]
    enum Token {
        #[regex("[0-9]+", |lex| lex.slice().parse())]
        Byte(u8),
        #[regex("[a-z]+", |_| { Err::<(), _>("no words") })]
        Word,
        #[token("-", |_| None::<()>)]
        Minus,
    }
    let wanted = [
        Ok(Token::Byte(1)),
        Err(Fault::Integer("overflow".into())),
        Err(Fault::Other("no words")),
        Err(Fault::Unknown),
    ];
    assert_eq!(items::<Token>("1 256 ab -"), wanted);
}

#[test]
fn a_string_as_the_error() {
    #[derive(Logos, Debug, PartialEq)]
    #[logos(error = String)]
    enum Token {
        #[regex("[0-9]+", |lex| lex.slice().parse::<i8>().map_err(|error| error.to_string()))]
        Byte(i8),
    }
    assert_eq!(items::<Token>("127"), [Ok(Token::Byte(127))]);
    assert_eq!(
        items::<Token>("128"),
        [Err("number too large to fit in target type".to_string())]
    );
    assert_eq!(items::<Token>("?"), [Err(String::new())]);
}

#[test]
fn a_callback_makes_the_error() {
    #[derive(Logos, Debug, PartialEq)]
    #[logos(error(Fault, |lex| Fault::Character(lex.slice().chars().next().unwrap())))]
    enum Token {
        #[token("a")]
        A,
    }
    let wanted = [
        (Err(Fault::Character('ß')), 0..2),
        (Ok(Token::A), 2..3),
        (Err(Fault::Character('!')), 3..4),
    ];
    assert_eq!(found::<Token>("ßa!"), wanted);
}

#[test]
fn a_function_makes_the_error() {
    #[derive(Logos, Debug, PartialEq)]
    #[logos(error(Fault, callback = unknown))]
    enum Token {
        #[regex("ab+c")]
        Abc,
    }
    fn unknown(lex: &mut Lexer<Token>) -> Fault {
        Fault::Integer(format!("{:?} {}", lex.span(), lex.slice()))
    }
    let wanted = [
        Err(Fault::Integer("0..3 abb".into())),
        Err(Fault::Integer("3..4 x".into())),
    ];
    assert_eq!(items::<Token>("abbx"), wanted);
}

#[test]
fn a_callback_that_takes_more() {
    #[derive(Logos, Debug, PartialEq)]
    #[logos(error(String, word))]
    enum Token {
        #[token(" ")]
        Blank,
    }
    fn word<'s>(lex: &mut Lexer<'s, Token>) -> String {
        let rest = lex.remainder().find(' ').unwrap_or(lex.remainder().len());
        lex.bump(rest);
        lex.slice().to_string()
    }
    let wanted = [
        (Err("ab".into()), "ab"),
        (Ok(Token::Blank), " "),
        (Err("çd".into()), "çd"),
    ];
    assert_eq!(texts::<Token>("ab çd"), wanted);
}

#[test]
fn errors_of_callbacks_beside_those_of_the_lexer() {
    #[derive(Logos, Debug, PartialEq)]
    #[logos(error(Fault, |_| Fault::Other("unmatched")))]
    enum Token {
        #[regex("[0-9]+", |lex| lex.slice().parse())]
        Byte(u8),
    }
    let wanted = [
        Err(Fault::Other("unmatched")),
        Err(Fault::Integer("overflow".into())),
    ];
    assert_eq!(items::<Token>("x999"), wanted);
}

#[test]
fn a_lexer_goes_on_after_an_error() {
    #[derive(Logos, Debug, PartialEq)]
    enum Token {
        #[token("abc")]
        Abc,
    }
    assert_eq!(
        texts::<Token>("ababc"),
        [(Err(()), "ab"), (Ok(Token::Abc), "abc")]
    );
}
