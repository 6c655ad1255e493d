//! Enums with lifetimes and type parameters.

use crate::items;
use logos::{Lexer, Logos};
use std::borrow::Cow;
use std::fmt::Debug;

#[test]
fn a_lifetime() {
    #[derive(Logos, Clone, Copy, Debug, PartialEq)]
    enum Token<'a> {
        #[regex("[a-z]+")]
        Word(&'a str),
        #[token(".")]
        End,
    }
    let text = String::from("ab.");
    assert_eq!(
        items::<Token>(&text),
        [Ok(Token::Word("ab")), Ok(Token::End)]
    );
}

#[test]
fn a_lifetime_inside_of_a_value() {
    #[derive(Logos, Debug, PartialEq)]
    enum Token<'text> {
        #[regex(r"[a-z]+(\\n[a-z]*)*", unescaped)]
        Text(Cow<'text, str>),
    }
    fn unescaped<'a>(lex: &mut Lexer<'a, Token<'a>>) -> Cow<'a, str> {
        match lex.slice().contains('\\') {
            true => Cow::Owned(lex.slice().replace("\\n", "\n")),
            false => Cow::Borrowed(lex.slice()),
        }
    }
    assert_eq!(items::<Token>(r"a\nb"), [Ok(Token::Text("a\nb".into()))]);
    assert!(matches!(
        Token::lexer("ab").next(),
        Some(Ok(Token::Text(Cow::Borrowed("ab"))))
    ));
}

#[test]
fn a_type_parameter() {
    #[derive(Logos, Debug, PartialEq)]
    #[logos(type N = u16)]
    enum Token<N> {
        #[regex("[0-9]+", |lex| lex.slice().parse::<u16>().ok())]
        Number(N),
    }
    assert_eq!(items::<Token<u16>>("65535"), [Ok(Token::Number(65_535))]);
    assert_eq!(items::<Token<u16>>("65536"), [Err(())]);
}

#[test]
fn a_type_parameter_that_is_a_reference() {
    #[derive(Logos, Debug, PartialEq)]
    #[logos(type S = &str, type N = u8)]
    enum Token<S, N> {
        #[regex("[a-z]+")]
        Word(S),
        #[regex("[0-9]", |lex| lex.slice().as_bytes()[0] - b'0')]
        Digit(N),
    }
    let found: Vec<Result<Token<&str, u8>, ()>> = Token::lexer("ab7").collect();
    assert_eq!(found, [Ok(Token::Word("ab")), Ok(Token::Digit(7))]);
}

#[test]
fn a_type_parameter_with_a_bound() {
    #[derive(Logos, Debug, PartialEq)]
    #[logos(type N = i32)]
    enum Token<N: Debug + PartialEq>
    where
        N: Clone,
    {
        #[regex("-?[0-9]+", |lex| lex.slice().parse().ok())]
        Number(N),
    }
    assert_eq!(items::<Token<i32>>("-7"), [Ok(Token::Number(-7))]);
}

#[test]
fn a_type_parameter_and_a_lifetime() {
    #[derive(Logos, Debug, PartialEq)]
    #[logos(type T = Vec<&'s str>)]
    enum Token<'s, T> {
        #[regex("[a-z](,[a-z])*", |lex| lex.slice().split(',').collect::<Vec<_>>())]
        List(T),
        #[token("!")]
        Bang(&'s str),
    }
    use Token::{Bang, List};
    assert_eq!(
        items::<Token<Vec<&str>>>("a,b!"),
        [Ok(List(vec!["a", "b"])), Ok(Bang("!"))]
    );
}

#[test]
fn a_parameter_inside_of_a_type() {
    #[derive(Logos, Debug, PartialEq)]
    #[logos(type T = u8)]
    enum Token<T> {
        #[regex("[a-z]+", |lex| lex.slice().bytes().collect::<Vec<u8>>())]
        Bytes(Vec<T>),
        #[token("?", |_| None::<u8>)]
        Fails(T),
    }
    assert_eq!(
        items::<Token<u8>>("ab?"),
        [Ok(Token::Bytes(vec![97, 98])), Err(())]
    );
}

#[test]
fn an_error_with_a_lifetime() {
    #[derive(Clone, Debug, Default, PartialEq)]
    struct Fault<'s>(&'s str);
    #[derive(Logos, Debug, PartialEq)]
    #[logos(error(Fault<'s>, |lex| Fault(lex.slice())))]
    enum Token<'s> {
        #[regex("[a-z]+")]
        Word(&'s str),
    }
    assert_eq!(
        items::<Token>("ab7"),
        [Ok(Token::Word("ab")), Err(Fault("7"))]
    );
}

#[test]
fn a_function_over_any_lexer() {
    fn count<'s, T: Logos<'s, Source = str, Extras = ()>>(text: &'s str) -> (usize, usize) {
        let items: Vec<_> = Lexer::<'s, T>::new(text).map(|item| item.is_ok()).collect();
        (items.iter().filter(|it| **it).count(), items.len())
    }
    #[derive(Logos)]
    enum Token<'s> {
        #[regex("[a-z]+")]
        Word(#[allow(dead_code)] &'s str),
    }
    assert_eq!(count::<Token>("ab1cd"), (2, 3));
}

#[test]
fn types_of_the_trait() {
    #[derive(Logos, Debug, PartialEq)]
    #[logos(error = String, extras = (u8, u8), utf8 = false)]
    enum Token {
        #[token("a")]
        A,
    }
    type Source = <Token as Logos<'static>>::Source;
    type Extras = <Token as Logos<'static>>::Extras;
    type Error = <Token as Logos<'static>>::Error;
    let bytes: &Source = b"a";
    let (extras, error): (Extras, Error) = ((1, 2), String::new());
    assert_eq!((bytes.len(), extras.0, error.len()), (1, 1, 0));
    assert_eq!(Token::lexer(bytes).next(), Some(Ok(Token::A)));
}
