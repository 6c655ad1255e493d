//! Callbacks that are closures, with blocks and without.

use logos::{Filter, Logos, Skip};
use std::collections::HashMap;

type Numbers = HashMap<String, usize>;

const LIMIT: usize = 3;

#[derive(Debug, Logos, PartialEq)]
#[logos(skip r"[ \n]+")]
#[logos(extras = Numbers)]
enum Token<'a> {
    #[regex(r"[0-9]+", |lex| lex.slice().parse().ok())]
    #[regex(r"0b[01]+", |lex| u64::from_str_radix(&lex.slice()[2..], 2).ok(), priority = 9)]
    Integer(u64),

    #[regex(r"[a-z]+", |lex| {
        // Each name has the number of its first place.
        let next = lex.extras.len();
        *lex.extras.entry(lex.slice().to_owned()).or_insert(next)
    })]
    Name(usize),

    #[regex(r#""([^"\\]|\\.)*""#, |lex| { let text = lex.slice(); &text[1..text.len() - 1] })]
    Text(&'a str),

    #[token("(", |lexer| match lexer.remainder().find(')') {
        Some(at) if at <= LIMIT => { lexer.bump(at + 1); Ok(()) }
        Some(_) => Err(()),
        None => { let all = lexer.remainder().len(); lexer.bump(all); Err(()) }
    })]
    Group,

    #[regex("-+", |lex| if lex.slice().len() == 2 { Filter::Emit('—') } else { Filter::Skip })]
    Dash(char),

    #[token("%", |_| Skip)]
    Percent,

    #[token("!", |_| {
        // Tokens of all kinds.
        let numbers: [f64; 2] = [1.0, -2e3];
        let (quote, text, r#type) = (b'\'', c"abc", r#"a"b"#);
        let mut n = 0x1F_u8;
        'outer: loop {
            for i in 0..=10_u8 {
                n <<= 1;
                if i << 1 >= 4 && quote != b'x' || n == u8::MAX - 1 { break 'outer }
            }
        }
        let lengths = [(&&numbers).len(), r#type.len(), text.to_bytes().len()];
        lengths.iter().map(|length| -> usize { *length }).sum::<usize>()
    })]
    Tokens(usize),

    #[regex("[.]+", callback = |lex| lex.slice().len() == 1, priority = 1)]
    Dot,
}

fn main() {
    let mut lexer = Token::lexer("12 0b101 abc xy abc \"a\\\"b\" (12) (1234) -- --- % . .. 99999999999999999999 ! (");
    while let Some(item) = lexer.next() {
        println!("{:?} {item:?}", lexer.span());
    }
    println!("{}", lexer.extras.len());
}
