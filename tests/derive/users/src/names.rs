//! Enums in modules, behind other names, and with other attributes.

use crate::texts;
use logos::Logos;

/// Another path to the crate.
mod vendored {
    pub mod lexing {
        pub use ::logos;
    }
}

#[test]
fn the_derive_by_its_path() {
    #[derive(logos::Logos, Debug, PartialEq)]
    enum Token {
        #[token("a")]
        A,
    }
    assert_eq!(texts::<Token>("a"), [(Ok(Token::A), "a")]);
}

#[test]
fn the_crate_by_another_path() {
    use vendored::lexing::logos as renamed;
    #[derive(renamed::Logos, Debug, PartialEq)]
    #[logos(crate = crate::names::vendored::lexing::logos)]
    enum Token {
        #[token("a")]
        A,
        #[regex("[0-9]+", renamed::skip)]
        Number,
    }
    assert_eq!(texts::<Token>("1a2"), [(Ok(Token::A), "a")]);
}

#[test]
fn an_enum_of_another_module() {
    mod tokens {
        #[derive(logos::Logos, Debug, PartialEq)]
        pub(in crate::names) enum Token {
            #[regex("[a-z]+", super::length)]
            Word(usize),
        }
    }
    assert_eq!(
        texts::<tokens::Token>("abc"),
        [(Ok(tokens::Token::Word(3)), "abc")]
    );
}

fn length<'s, T: Logos<'s, Source = str>>(lex: &mut logos::Lexer<'s, T>) -> usize {
    lex.slice().len()
}

#[test]
fn names_that_shadow_those_of_the_prelude() {
    #[derive(Debug, PartialEq, Logos)]
    enum Option {
        #[token("some")]
        Some,
        #[token("none")]
        None,
        #[token("ok")]
        Ok,
        #[token("err")]
        Err,
    }
    let found: Vec<_> = Option::lexer("noneokerrsome").flatten().collect();
    assert_eq!(found, [Option::None, Option::Ok, Option::Err, Option::Some]);
}

#[test]
fn names_of_types_that_are_taken() {
    #[allow(dead_code)]
    struct Result;
    #[allow(dead_code)]
    struct Lexer;
    #[allow(dead_code)]
    struct Vec;
    #[allow(dead_code)]
    enum Action {}
    #[derive(Logos, Debug, PartialEq)]
    enum State {
        #[token("a")]
        State0,
        #[regex("b+")]
        Start,
    }
    assert_eq!(
        texts::<State>("abb"),
        [(Ok(State::State0), "a"), (Ok(State::Start), "bb")]
    );
}

#[test]
fn raw_names() {
    #[derive(Logos, Debug, PartialEq)]
    #[allow(non_camel_case_types)]
    enum r#type {
        #[token("fn")]
        r#fn,
        #[token("if")]
        r#If,
    }
    assert_eq!(
        texts::<r#type>("iffn"),
        [(Ok(r#type::If), "if"), (Ok(r#type::r#fn), "fn")]
    );
}

#[test]
fn documented_variants() {
    /// Two tokens.
    #[derive(Logos, Debug, PartialEq)]
    #[non_exhaustive]
    enum Token {
        /// The first one.
        #[doc(alias = "plus")]
        #[token("+")]
        Plus,
        /** The second one. */
        #[token("-")]
        #[deprecated]
        #[allow(deprecated)]
        Minus,
    }
    #[allow(deprecated)]
    let wanted = [(Ok(Token::Plus), "+"), (Ok(Token::Minus), "-")];
    assert_eq!(texts::<Token>("+-"), wanted);
}

#[test]
fn variants_that_are_left_out() {
    #[derive(Logos, Debug, PartialEq)]
    enum Token {
        #[token("a")]
        A,
        #[cfg(any())]
        #[token("b")]
        B,
    }
    assert_eq!(texts::<Token>("ab"), [(Ok(Token::A), "a"), (Err(()), "b")]);
}

#[test]
fn an_enum_of_a_macro() {
    macro_rules! operators {
        ($($name:ident $text:literal),*) => {
            #[derive(Logos, Debug, PartialEq)]
            enum Operator {
                $(#[token($text)] $name),*
            }
        };
    }
    operators!(Plus "+", PlusPlus "++");
    assert_eq!(
        texts::<Operator>("+++"),
        [(Ok(Operator::PlusPlus), "++"), (Ok(Operator::Plus), "+")]
    );
}

#[test]
fn attributes_of_one_enum_in_several_places() {
    #[derive(Debug, Logos)]
    #[logos(skip " ", extras = u8)]
    #[derive(PartialEq)]
    #[logos(error = u16, subpattern d = "[0-9]")]
    enum Token {
        #[regex("(?&d)+")]
        Digits,
    }
    assert_eq!(
        texts::<Token>("1 ?"),
        [(Ok(Token::Digits), "1"), (Err(0), "?")]
    );
}
