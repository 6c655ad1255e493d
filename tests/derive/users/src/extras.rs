//! State that callbacks read and change.

use logos::{Lexer, Logos, Skip};
use std::collections::HashMap;

#[test]
fn a_counter() {
    #[derive(Logos, Debug, PartialEq)]
    #[logos(extras = u32)]
    enum Token {
        #[token("a", |lex| { lex.extras += 1; lex.extras })]
        A(u32),
    }
    let mut lexer = Token::lexer("aaa");
    assert_eq!(
        lexer.by_ref().flatten().collect::<Vec<_>>(),
        [Token::A(1), Token::A(2), Token::A(3)]
    );
    assert_eq!(lexer.extras, 3);
}

#[test]
fn extras_that_are_given() {
    #[derive(Logos, Debug, PartialEq)]
    #[logos(extras = Vec<String>)]
    enum Token {
        #[regex("[a-z]+", |lex| { let word = lex.slice().to_string(); lex.extras.push(word); })]
        Word,
    }
    let mut lexer = Token::lexer_with_extras("ab", vec!["first".to_string()]);
    assert_eq!(lexer.next(), Some(Ok(Token::Word)));
    assert_eq!(lexer.extras, ["first", "ab"]);
}

#[test]
fn extras_without_a_default() {
    struct Scale(u64);
    #[derive(Logos, Debug, PartialEq)]
    #[logos(extras = Scale)]
    enum Token {
        #[regex("[0-9]+", |lex| lex.slice().parse::<u64>().map(|it| it * lex.extras.0).map_err(drop))]
        Number(u64),
    }
    let mut lexer = Token::lexer_with_extras("7", Scale(6));
    assert_eq!(lexer.next(), Some(Ok(Token::Number(42))));
}

#[test]
fn lines_and_columns() {
    #[derive(Default)]
    struct Lines {
        number: usize,
        start: usize,
    }
    #[derive(Logos, Debug, PartialEq)]
    #[logos(extras = Lines, skip " ")]
    enum Token {
        #[token("\n", new_line)]
        Line,
        #[regex("[a-z]+", position)]
        Word((usize, usize)),
    }
    fn new_line(lex: &mut Lexer<Token>) -> Skip {
        lex.extras.number += 1;
        lex.extras.start = lex.span().end;
        Skip
    }
    fn position(lex: &mut Lexer<Token>) -> (usize, usize) {
        (lex.extras.number, lex.span().start - lex.extras.start)
    }
    let found: Vec<_> = Token::lexer("a bc\n\n  d").flatten().collect();
    assert_eq!(
        found,
        [
            Token::Word((0, 0)),
            Token::Word((0, 2)),
            Token::Word((2, 2))
        ]
    );
}

#[test]
fn names_that_are_interned() {
    // A comma cuts the arguments of an attribute, also between `<` and `>`.
    type Names<'s> = HashMap<&'s str, usize>;
    #[derive(Logos, Debug, PartialEq)]
    #[logos(extras = Names<'s>, skip " ")]
    enum Token<'s> {
        #[regex("[a-z]+", intern)]
        Name(usize),
        #[regex("[0-9]+")]
        Digits(&'s str),
    }
    fn intern<'s>(lex: &mut Lexer<'s, Token<'s>>) -> usize {
        let next = lex.extras.len();
        *lex.extras.entry(lex.slice()).or_insert(next)
    }
    use Token::{Digits, Name};
    let mut lexer = Token::lexer("b a 7 b");
    let found: Vec<_> = lexer.by_ref().flatten().collect();
    assert_eq!(found, [Name(0), Name(1), Digits("7"), Name(0)]);
    assert_eq!(lexer.extras, HashMap::from([("b", 0), ("a", 1)]));
}

#[test]
fn what_is_allowed_depends_on_extras() {
    #[derive(Logos, Debug, PartialEq)]
    #[logos(extras = usize)]
    enum Token {
        #[token("(", |lex| lex.extras += 1)]
        Open,
        #[token(")", close)]
        Close,
    }
    fn close(lex: &mut Lexer<Token>) -> Option<()> {
        lex.extras = lex.extras.checked_sub(1)?;
        Some(())
    }
    use Token::{Close, Open};
    let found: Vec<_> = Token::lexer("())(").collect();
    assert_eq!(found, [Ok(Open), Ok(Close), Err(()), Ok(Open)]);
}

#[test]
fn extras_are_changed_from_outside() {
    #[derive(Logos, Debug, PartialEq)]
    #[logos(extras = bool)]
    enum Token {
        #[token("a", |lex| lex.extras)]
        A,
    }
    let mut lexer = Token::lexer("aaa");
    assert_eq!(lexer.next(), Some(Err(())));
    lexer.extras = true;
    assert_eq!(lexer.next(), Some(Ok(Token::A)));
    lexer.extras = false;
    assert_eq!(lexer.next(), Some(Err(())));
}

#[test]
fn extras_that_are_references() {
    struct Words<'w>(&'w [&'w str]);
    #[derive(Logos, Debug, PartialEq)]
    #[logos(extras = Words<'s>)]
    enum Token<'s> {
        #[regex("[a-z]+", |lex| lex.extras.0.contains(&lex.slice()))]
        Known,
        #[token("?")]
        Ask(&'s str),
    }
    let words = ["let", "mut"];
    let found: Vec<_> = Token::lexer_with_extras("let?mat", Words(&words)).collect();
    assert_eq!(found, [Ok(Token::Known), Ok(Token::Ask("?")), Err(())]);
}
