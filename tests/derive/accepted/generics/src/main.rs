//! Enums with parameters: a lifetime, and types that the attribute names.

#![allow(dead_code)]

use logos::{Lexer, Logos};
use std::collections::BTreeMap;
use std::fmt::Debug;

#[derive(Logos, Clone, Debug, PartialEq)]
#[logos(skip r"\s+")]
#[logos(type S = &str, type N = u64)]
enum Token<S, N: Debug + Clone> {
    #[regex("[a-z]+")]
    Word(S),
    #[regex("[0-9]+", |lex| lex.slice().parse::<u64>().ok())]
    Number(N),
    #[token("..")]
    Range,
}

impl<S, N: Debug + Clone> Token<S, N> {
    fn is_word(&self) -> bool {
        matches!(self, Token::Word(_))
    }
}

/// What is interned, and under which number.
#[derive(Default)]
pub struct Interner<'s> {
    numbers: BTreeMap<&'s str, u32>,
}

#[derive(Logos, Clone, Copy, Debug, PartialEq, Eq, Hash)]
#[logos(extras = Interner<'s>)]
pub enum Symbol<'input> {
    #[regex(r"\p{XID_Start}\p{XID_Continue}*", intern)]
    Interned(u32),
    #[regex(r"`[^`]*`", |lex| lex.slice().trim_matches('`'))]
    Quoted(&'input str),
    #[regex(r"[,\s]", logos::skip)]
    Skipped,
}

fn intern<'s>(lex: &mut Lexer<'s, Symbol<'s>>) -> u32 {
    let next = lex.extras.numbers.len() as u32;
    *lex.extras.numbers.entry(lex.slice()).or_insert(next)
}

/// Returns the tokens of any lexer over text.
fn all<'s, T>(text: &'s str) -> Vec<Result<T, T::Error>>
where
    T: Logos<'s, Source = str>,
    T::Extras: Default,
{
    T::lexer(text).collect()
}

fn main() {
    for item in all::<Token<&str, u64>>("ab 12..cd 99999999999999999999") {
        println!("{item:?} {}", item.as_ref().is_ok_and(Token::is_word));
    }
    for item in all::<Symbol>("é,x `a b` é") {
        println!("{item:?}");
    }
}
