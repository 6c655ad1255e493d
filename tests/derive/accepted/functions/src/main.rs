//! Callbacks that are functions, of each kind of answer.

use logos::{Filter, FilterResult, Lexer, Logos, Skip};

fn number(lex: &mut Lexer<Token>) -> Option<u64> {
    let slice = lex.slice();
    let digits: u64 = slice[..slice.len() - 1].parse().ok()?;
    Some(digits * 1_000)
}

fn length(lex: &mut Lexer<Token>) -> usize {
    lex.slice().len()
}

fn is_short(lex: &mut Lexer<Token>) -> bool {
    lex.span().len() < 4
}

fn block_comment(lex: &mut Lexer<Token>) -> Skip {
    let length = lex.remainder().find("*/").map_or(lex.remainder().len(), |at| at + 2);
    lex.bump(length);
    Skip
}

fn no_tabs(lex: &mut Lexer<Token>) -> Filter<char> {
    match lex.slice().chars().next() {
        Some('\t') | None => Filter::Skip,
        Some(blank) => Filter::Emit(blank),
    }
}

fn flag(lex: &mut Lexer<Token>) -> FilterResult<bool, ()> {
    match &lex.slice()[1..] {
        "yes" => FilterResult::Emit(true),
        "no" => FilterResult::Emit(false),
        "ignore" => FilterResult::Skip,
        _ => FilterResult::Error(()),
    }
}

mod parse {
    use super::Token;

    pub fn hex<'s>(lex: &mut logos::Lexer<'s, Token>) -> Result<u32, ()> {
        u32::from_str_radix(&lex.slice()[2..], 16).map_err(|_| ())
    }
}

fn digits<T: std::str::FromStr>(lex: &mut Lexer<Token>) -> Option<T> {
    lex.slice()[1..].parse().ok()
}

trait Place {
    fn place<'s>(lex: &mut Lexer<'s, Token>) -> usize;
}

struct Start;

impl Place for Start {
    fn place<'s>(lex: &mut Lexer<'s, Token>) -> usize {
        lex.span().start
    }
}

#[derive(Logos, Clone, Debug, PartialEq)]
#[logos(skip(r"//[^\n]*\n", logos::skip, allow_greedy = true))]
enum Token {
    #[regex("[0-9]+k", number)]
    Kilo(u64),
    #[regex("[a-z]+", length)]
    Word(usize),
    #[regex("[A-Z]+", is_short, priority = 20)]
    Acronym,
    #[regex("0x[0-9a-fA-F]+", callback = parse::hex)]
    Hex(u32),
    #[token("/*", block_comment)]
    Comment,
    #[regex("[ \t]", no_tabs)]
    Blank(char),
    #[regex("@[a-z]+", flag)]
    Flag(bool),
    #[regex("#[0-9]+", digits::<u8>)]
    Index(u8),
    #[token("here", <Start as Place>::place)]
    Here(usize),
    #[regex("\n+", logos::skip)]
    Newlines,
}

fn main() {
    let text = "12k abc\t/* two\nlines */XYZ0xffXYZW@yes@ignore@x\n// x\n0xfffffffff 99999999999999999999k#12#300here";
    for (item, span) in Token::lexer(text).spanned() {
        println!("{}..{} {item:?}", span.start, span.end);
    }
}
