//! Callbacks in all forms, which all give items here.

use logos::{Filter, FilterResult, Lexer, Logos};

/// Counts.
#[derive(Debug, Default, Clone)]
pub struct Counts {
    pub lines: usize,
    pub words: usize,
}

/// Counts a line.
fn line<'s>(lex: &mut Lexer<'s, Token<'s>>) {
    lex.extras.lines += 1;
}

/// Returns a number.
fn number<'s>(lex: &mut Lexer<'s, Token<'s>>) -> Option<u64> {
    lex.slice().parse().ok()
}

mod deep {
    pub fn sign<'s>(lex: &mut logos::Lexer<'s, super::Token<'s>>) -> char {
        lex.slice().chars().next().unwrap_or(' ')
    }
}

#[derive(Debug, Logos, Clone, PartialEq)]
#[logos(extras = Counts)]
#[logos(skip(r"[ \t]+"))]
pub enum Token<'s> {
    #[token("\n", line)]
    Line,
    #[regex("[0-9]+", number)]
    Number(u64),
    #[regex("[+*/-]", deep::sign)]
    Sign(char),
    #[regex("[a-z]+", |lex| {
        lex.extras.words += 1;
        let text = lex.slice();
        if text.len() > 100 { Err(()) } else { Ok(text) }
    })]
    Word(&'s str),
    #[regex("[A-Z]+", |lex| Filter::Emit(lex.slice().len()))]
    Capital(usize),
    #[regex("_+", |_| { FilterResult::<(), ()>::Emit(()) })]
    Underline,
    #[token("true", callback = |_| true)]
    #[token("false", |_| false, priority = 20)]
    Truth(bool),
    #[regex("@[a-z]+", |_| true)]
    Mark,
}
