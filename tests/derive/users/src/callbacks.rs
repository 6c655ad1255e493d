//! Callbacks that make values, as functions and as closures.

use crate::{found, items, texts};
use logos::{Lexer, Logos};

#[test]
fn a_closure_makes_a_value() {
    #[derive(Logos, Debug, PartialEq)]
    enum Token {
        #[regex("[a-z]+", |lex| lex.slice().len())]
        Length(usize),
    }
    assert_eq!(items::<Token>("abcd"), [Ok(Token::Length(4))]);
}

#[test]
fn a_function_makes_a_value() {
    #[derive(Logos, Debug, PartialEq)]
    enum Token {
        #[regex("[0-9]+", twice)]
        Even(u64),
    }
    fn twice(lex: &mut Lexer<Token>) -> u64 {
        lex.slice().parse::<u64>().unwrap() * 2
    }
    assert_eq!(items::<Token>("21"), [Ok(Token::Even(42))]);
}

#[test]
fn a_function_with_the_lifetime_of_the_input() {
    #[derive(Logos, Debug, PartialEq)]
    enum Token<'s> {
        #[regex("'[^']*'", inside)]
        Text(&'s str),
    }
    fn inside<'s>(lex: &mut Lexer<'s, Token<'s>>) -> &'s str {
        lex.slice().trim_matches('\'')
    }
    assert_eq!(
        items::<Token>("'a b'''"),
        [Ok(Token::Text("a b")), Ok(Token::Text(""))]
    );
}

#[test]
fn the_slice_without_a_callback() {
    #[derive(Logos, Debug, PartialEq)]
    enum Token<'s> {
        #[regex("[a-z]+")]
        Word(&'s str),
        #[token("+")]
        Plus(&'s str),
    }
    assert_eq!(
        items::<Token>("ab+"),
        [Ok(Token::Word("ab")), Ok(Token::Plus("+"))]
    );
}

#[test]
fn an_option() {
    #[derive(Logos, Debug, PartialEq)]
    enum Token {
        #[regex("[0-9]+", |lex| lex.slice().parse().ok())]
        Byte(u8),
    }
    assert_eq!(items::<Token>("255"), [Ok(Token::Byte(255))]);
    assert_eq!(found::<Token>("256"), [(Err(()), 0..3)]);
}

#[test]
fn an_option_of_nothing() {
    #[derive(Logos, Debug, PartialEq)]
    enum Token {
        #[regex("[a-z]+", |lex| { (lex.slice().len() < 3).then_some(()) })]
        Short,
    }
    assert_eq!(texts::<Token>("ab"), [(Ok(Token::Short), "ab")]);
    assert_eq!(texts::<Token>("abc"), [(Err(()), "abc")]);
}

#[test]
fn a_result() {
    #[derive(Logos, Debug, PartialEq)]
    enum Token {
        #[regex("[0-9]+", |lex| lex.slice().parse::<u8>().map_err(drop))]
        Byte(u8),
    }
    assert_eq!(items::<Token>("7"), [Ok(Token::Byte(7))]);
    assert_eq!(items::<Token>("700"), [Err(())]);
}

#[test]
fn a_truth_value() {
    #[derive(Logos, Debug, PartialEq)]
    enum Token {
        #[regex("[a-z]+", |lex| lex.slice() != "bad")]
        Good,
        #[token(" ")]
        Blank,
    }
    use Token::{Blank, Good};
    assert_eq!(
        texts::<Token>("bad good"),
        [(Err(()), "bad"), (Ok(Blank), " "), (Ok(Good), "good")]
    );
}

#[test]
fn a_truth_value_as_the_value() {
    #[derive(Logos, Debug, PartialEq)]
    enum Token {
        #[regex("true|false", |lex| lex.slice() == "true")]
        Flag(bool),
    }
    assert_eq!(
        items::<Token>("falsetrue"),
        [Ok(Token::Flag(false)), Ok(Token::Flag(true))]
    );
}

#[test]
fn nothing_as_the_answer() {
    #[derive(Logos, Debug, PartialEq)]
    enum Token {
        #[token("a", |_| ())]
        A,
        #[token("b", |_| {})]
        B,
    }
    assert_eq!(items::<Token>("ab"), [Ok(Token::A), Ok(Token::B)]);
}

#[test]
fn a_truth_value_of_a_function() {
    #[derive(Logos, Debug, PartialEq)]
    enum Token {
        #[regex("[a-z]+", is_keyword)]
        Keyword,
    }
    fn is_keyword(lex: &mut Lexer<Token>) -> bool {
        lex.slice() == "while"
    }
    assert_eq!(items::<Token>("while"), [Ok(Token::Keyword)]);
    assert_eq!(items::<Token>("whale"), [Err(())]);
}

#[test]
fn a_named_callback() {
    #[derive(Logos, Debug, PartialEq)]
    enum Token {
        #[regex("[a-z]", priority = 4, callback = |lex| lex.slice().chars().next().unwrap())]
        Letter(char),
        #[regex("[0-9]", callback = first)]
        Digit(char),
    }
    fn first(lex: &mut Lexer<Token>) -> Option<char> {
        lex.slice().chars().next()
    }
    assert_eq!(
        items::<Token>("a1"),
        [Ok(Token::Letter('a')), Ok(Token::Digit('1'))]
    );
}

#[test]
fn a_callback_in_a_module() {
    mod parse {
        pub mod hex {
            use logos::{Lexer, Logos};

            pub fn number<'s, T: Logos<'s, Source = str>>(lex: &mut Lexer<'s, T>) -> Option<u32> {
                u32::from_str_radix(lex.slice().strip_prefix("0x")?, 16).ok()
            }
        }
    }
    #[derive(Logos, Debug, PartialEq)]
    enum Token {
        #[regex("0x[0-9a-f]+", parse::hex::number)]
        Hex(u32),
    }
    assert_eq!(
        items::<Token>("0x1g0xff"),
        [Ok(Token::Hex(1)), Err(()), Ok(Token::Hex(255))]
    );
}

#[test]
fn one_callback_for_several_patterns() {
    #[derive(Logos, Debug, PartialEq)]
    enum Token {
        #[token("one", |_| 1)]
        #[token("two", |_| 2)]
        #[regex("[0-9]+", |lex| lex.slice().parse().ok())]
        Number(i32),
    }
    use Token::Number;
    assert_eq!(
        items::<Token>("two1one9"),
        [Ok(Number(2)), Ok(Number(1)), Ok(Number(1)), Ok(Number(9))]
    );
}

#[test]
fn a_block_as_the_body() {
    #[derive(Logos, Debug, PartialEq)]
    enum Token {
        #[regex("#[0-9a-fA-F]{6}", |lex| {
            let part = |at: usize| u8::from_str_radix(&lex.slice()[at..at + 2], 16).unwrap();
            (part(1), part(3), part(5))
        })]
        Color((u8, u8, u8)),
    }
    assert_eq!(items::<Token>("#10Ff00"), [Ok(Token::Color((16, 255, 0)))]);
}

#[test]
fn a_question_mark_in_a_function() {
    #[derive(Logos, Debug, PartialEq)]
    enum Token {
        #[regex("[0-9]+:[0-9]+", minutes)]
        Time(u32),
    }
    fn minutes(lex: &mut Lexer<Token>) -> Option<u32> {
        let (hour, minute) = lex.slice().split_once(':')?;
        Some(hour.parse::<u32>().ok()? * 60 + minute.parse::<u32>().ok()?)
    }
    assert_eq!(items::<Token>("2:05"), [Ok(Token::Time(125))]);
    assert_eq!(items::<Token>("2:99999999999"), [Err(())]);
}

#[test]
fn a_value_on_the_heap() {
    #[derive(Logos, Clone, Debug, PartialEq)]
    enum Token {
        #[regex("[a-z]+", |lex| lex.slice().to_owned())]
        Name(String),
        #[regex("[0-9](,[0-9])*", |lex| lex.slice().split(',').filter_map(|it| it.parse().ok()).collect::<Vec<u8>>())]
        List(Vec<u8>),
        #[token("()", |_| Box::new(None))]
        Unit(Box<Option<Token>>),
    }
    let wanted = [
        Ok(Token::Name("ab".into())),
        Ok(Token::List(vec![1, 2, 3])),
        Ok(Token::Unit(Box::new(None))),
    ];
    assert_eq!(items::<Token>("ab1,2,3()"), wanted);
}

#[test]
fn the_span_in_a_callback() {
    #[derive(Logos, Debug, PartialEq)]
    #[logos(skip " +")]
    enum Token {
        #[regex("[a-z]+", |lex| lex.span())]
        At(logos::Span),
    }
    assert_eq!(
        items::<Token>("ab   c"),
        [Ok(Token::At(0..2)), Ok(Token::At(5..6))]
    );
}

#[test]
fn a_callback_for_the_longest_match_alone() {
    use std::sync::atomic::{AtomicUsize, Ordering};
    static CALLS: AtomicUsize = AtomicUsize::new(0);
    #[derive(Logos, Debug, PartialEq)]
    enum Token {
        #[token("a", |_| { CALLS.fetch_add(1, Ordering::Relaxed); })]
        A,
        #[token("aab")]
        Aab,
    }
    let found: Vec<_> = Token::lexer("aabaa").collect();
    assert_eq!(found, [Ok(Token::Aab), Ok(Token::A), Ok(Token::A)]);
    assert_eq!(CALLS.load(Ordering::Relaxed), 2);
}

#[test]
fn a_callback_reads_on() {
    #[derive(Logos, Debug, PartialEq)]
    enum Token<'s> {
        #[regex("r#*\"", raw)]
        Raw(&'s str),
        #[token(";")]
        End,
    }
    fn raw<'s>(lex: &mut Lexer<'s, Token<'s>>) -> Option<&'s str> {
        let end = format!("\"{}", "#".repeat(lex.slice().len() - 2));
        let inside = lex.remainder().find(&end)?;
        let text = &lex.remainder()[..inside];
        lex.bump(inside + end.len());
        Some(text)
    }
    use Token::{End, Raw};
    let wanted = [
        (Ok(Raw("a\"b")), 0..8),
        (Ok(End), 8..9),
        (Ok(Raw("")), 9..12),
        (Err(()), 12..14),
    ];
    assert_eq!(found::<Token>("r#\"a\"b\"#;r\"\"r\""), wanted);
}
