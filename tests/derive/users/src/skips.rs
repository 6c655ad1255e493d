//! Skips of the enum.

use crate::{found, texts};
use logos::{Lexer, Logos, Skip};

#[test]
fn several_skips() {
    #[derive(Logos, Debug, PartialEq)]
    #[logos(skip " +")]
    #[logos(skip "#[a-z]*\n", skip ";")]
    enum Token {
        #[regex("[a-z]+")]
        Word,
    }
    assert_eq!(
        texts::<Token>("ab ;#cd\nef;"),
        [(Ok(Token::Word), "ab"), (Ok(Token::Word), "ef")]
    );
    assert_eq!(texts::<Token>("#cd"), [(Err(()), "#cd")]);
}

#[test]
fn a_skip_in_parentheses() {
    #[derive(Logos, Debug, PartialEq)]
    #[logos(skip("[ab]+"))]
    enum Token {
        #[token("c")]
        C,
    }
    assert_eq!(found::<Token>("abcba"), [(Ok(Token::C), 2..3)]);
}

#[test]
fn a_skip_that_is_longer_than_a_token() {
    #[derive(Logos, Debug, PartialEq)]
    #[logos(skip("//[^\n]*", allow_greedy = true))]
    enum Token {
        #[token("/")]
        Slash,
        #[token("\n")]
        Line,
    }
    use Token::{Line, Slash};
    assert_eq!(
        texts::<Token>("/\n// /\n/"),
        [
            (Ok(Slash), "/"),
            (Ok(Line), "\n"),
            (Ok(Line), "\n"),
            (Ok(Slash), "/"),
        ]
    );
}

#[test]
fn a_skip_with_a_callback_counts_lines() {
    #[derive(Logos, Debug, PartialEq)]
    #[logos(extras = usize)]
    #[logos(skip " +", skip("\n", |lex| { lex.extras += 1; }))]
    enum Token {
        #[regex("[a-z]+", |lex| lex.extras)]
        Word(usize),
    }
    use Token::Word;
    assert_eq!(
        texts::<Token>("a\n b\n\nc"),
        [(Ok(Word(0)), "a"), (Ok(Word(1)), "b"), (Ok(Word(3)), "c")]
    );
}

#[test]
fn a_skip_with_a_function() {
    #[derive(Logos, Debug, PartialEq)]
    #[logos(skip("/\\*", to_the_end))]
    enum Token {
        #[regex("[a-z]+")]
        Word,
    }
    fn to_the_end(lex: &mut Lexer<Token>) {
        let length = lex
            .remainder()
            .find("*/")
            .map_or(lex.remainder().len(), |at| at + 2);
        lex.bump(length);
    }
    assert_eq!(
        texts::<Token>("a/* b * */c/*"),
        [(Ok(Token::Word), "a"), (Ok(Token::Word), "c")]
    );
}

#[test]
fn a_skip_with_the_answer_skip() {
    #[derive(Logos, Debug, PartialEq)]
    #[logos(skip("[0-9]+", callback = |_| Skip))]
    enum Token {
        #[regex("[a-z]+")]
        Word,
    }
    assert_eq!(
        texts::<Token>("1a2b"),
        [(Ok(Token::Word), "a"), (Ok(Token::Word), "b")]
    );
}

#[derive(Clone, Debug, Default, PartialEq)]
enum Fault {
    #[default]
    Unknown,
    Tab,
}

#[test]
fn a_skip_that_can_fail() {
    #[derive(Logos, Debug, PartialEq)]
    #[logos(error = Fault)]
    #[logos(skip("[ \t]+", no_tab))]
    enum Token {
        #[regex("[a-z]+")]
        Word,
    }
    fn no_tab(lex: &mut Lexer<Token>) -> Result<(), Fault> {
        match lex.slice().contains('\t') {
            true => Err(Fault::Tab),
            false => Ok(()),
        }
    }
    let wanted = [
        (Ok(Token::Word), "a"),
        (Err(Fault::Tab), " \t"),
        (Ok(Token::Word), "b"),
        (Ok(Token::Word), "c"),
        (Err(Fault::Unknown), "?"),
    ];
    assert_eq!(texts::<Token>("a \tb c?"), wanted);
}

#[test]
fn a_skip_that_fails_with_a_result_of_skip() {
    #[derive(Logos, Debug, PartialEq)]
    #[logos(skip("_+", |lex| if lex.slice().len() < 3 { Ok(Skip) } else { Err(()) }))]
    enum Token {
        #[token("a")]
        A,
    }
    assert_eq!(
        texts::<Token>("_a___"),
        [(Ok(Token::A), "a"), (Err(()), "___")]
    );
}

#[test]
fn a_skip_in_either_case() {
    #[derive(Logos, Debug, PartialEq)]
    #[logos(skip("rem", ignore(case)))]
    enum Token {
        #[token("x")]
        X,
    }
    assert_eq!(texts::<Token>("remxREMReM"), [(Ok(Token::X), "x")]);
}

#[test]
fn nothing_is_left_after_a_skip() {
    #[derive(Logos, Debug, PartialEq)]
    #[logos(skip " ")]
    enum Token {
        #[token("a")]
        A,
    }
    let mut lexer = Token::lexer("a  ");
    assert_eq!(lexer.next(), Some(Ok(Token::A)));
    assert_eq!(lexer.remainder(), "  ");
    assert_eq!(lexer.next(), None);
    assert_eq!((lexer.span(), lexer.remainder()), (3..3, ""));
}
