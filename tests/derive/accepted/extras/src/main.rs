//! Extras that count lines and gather names, callbacks of skips, and a lexer that parts share.

#![allow(dead_code)]

use logos::{Lexer, Logos, Skip};

/// Where a line begins, and how many were before it.
#[derive(Clone, Debug, Default)]
struct Lines {
    number: usize,
    start: usize,
}

/// Counts a line.
fn newline<'s>(lex: &mut Lexer<'s, Token<'s>>) -> Skip {
    lex.extras.lines.number += 1;
    lex.extras.lines.start = lex.span().end;
    Skip
}

/// Returns line and column.
fn place<'s>(lex: &mut Lexer<'s, Token<'s>>) -> (usize, usize) {
    (lex.extras.lines.number, lex.span().start - lex.extras.lines.start)
}

#[derive(Clone, Debug)]
struct State<'s> {
    lines: Lines,
    names: Vec<&'s str>,
    deepest: u8,
}

#[derive(Logos, Debug)]
#[logos(extras = State<'s>)]
#[logos(skip("\n", newline))]
#[logos(skip("#[a-z ]*", |lex| { lex.extras.names.push(&lex.slice()[1..]); }))]
#[logos(skip " +")]
enum Token<'s> {
    #[regex("[a-z]+", place)]
    Word((usize, usize)),
    #[regex("&[a-z]+", |lex| { let name: &'s str = &lex.slice()[1..]; lex.extras.names.push(name); name })]
    Name(&'s str),
    #[regex("[(]+", |lex| {
        let depth = lex.slice().len() as u8;
        lex.extras.deepest = depth.max(lex.extras.deepest);
    })]
    Open,
}

fn main() {
    let state = State { lines: Lines::default(), names: vec!["first"], deepest: 1 };
    let mut lexer = Token::lexer_with_extras("a bc\n # note \n&de ((f (!\n", state);
    while let Some(item) = lexer.next() {
        println!("{:?} {item:?} {}", lexer.span(), lexer.extras.deepest);
    }
    println!("{:?} {:?}", lexer.extras.names, lexer.extras.lines);
}
